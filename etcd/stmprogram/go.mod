module stmprogram

go 1.19
