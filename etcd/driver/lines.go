package main

import (
	"bytes"
	"fmt"
	"strconv"

	"stmprogram"
)

// line is a line of a report, or a list in one: texts, whole numbers, truths, nil and lists.
type line []interface{}

// refused is the line of an event that was refused.
func refused(cause string) line {
	return line{"refused", cause, line{}}
}

// write adds the line's JSON, without white space.
func (l line) write(out *bytes.Buffer) {
	out.WriteByte('[')
	for i, element := range l {
		if i > 0 {
			out.WriteByte(',')
		}
		writeElement(out, element)
	}
	out.WriteByte(']')
}

func writeElement(out *bytes.Buffer, element interface{}) {
	switch e := element.(type) {
	case nil:
		out.WriteString("null")
	case bool:
		out.WriteString(strconv.FormatBool(e))
	case int64:
		out.WriteString(strconv.FormatInt(e, 10))
	case uint64:
		out.WriteString(strconv.FormatUint(e, 10))
	case string:
		out.Write(stmprogram.Spelled(e))
	case line:
		e.write(out)
	default:
		panic(fmt.Sprintf("no element of a line: %T", element))
	}
}
