package stmprogram

import (
	"bytes"
	"encoding/json"
	"fmt"
	"strconv"
)

// Value is a text or a number.
type Value struct {
	IsText bool
	Text   string
	Number int64
}

// TextOf is a text as a value.
func TextOf(text string) Value { return Value{IsText: true, Text: text} }

// NumberOf is a number as a value.
func NumberOf(number int64) Value { return Value{Number: number} }

// MarshalJSON spells the value as stmrun does: a text with the short escapes alone, a number without fraction or exponent.
func (v Value) MarshalJSON() ([]byte, error) {
	if v.IsText {
		return Spelled(v.Text), nil
	}
	return strconv.AppendInt(nil, v.Number, 10), nil
}

// Looked is a look-up of a key: the word is get or rev, the value a text or a number.
type Looked struct {
	Word, Key string
	Value     Value
}

// MarshalJSON spells the look-up as ["get",KEY,VALUE] or ["rev",KEY,REVISION].
func (l Looked) MarshalJSON() ([]byte, error) {
	value, err := l.Value.MarshalJSON()
	return bytes.Join([][]byte{[]byte(`["` + l.Word + `",`), Spelled(l.Key), []byte(","), value, []byte("]")}, nil), err
}

var shortEscapes = map[byte]string{'"': `\"`, '\\': `\\`, '\b': `\b`, '\f': `\f`, '\n': `\n`, '\r': `\r`, '\t': `\t`}

// Spelled is a text as JSON, as stmrun spells it: with no escape that JSON does not ask for.
func Spelled(text string) []byte {
	var out bytes.Buffer
	out.WriteByte('"')
	for i := 0; i < len(text); i++ {
		c := text[i]
		if escape, isShort := shortEscapes[c]; isShort {
			out.WriteString(escape)
		} else if c < 0x20 {
			fmt.Fprintf(&out, `\u%04x`, c)
		} else {
			out.WriteByte(c)
		}
	}
	out.WriteByte('"')
	return out.Bytes()
}

// Line spells a result as one array: what it is, and what belongs to it. Only a commit shows what the program emitted and looked up.
func (r Result) Line() []byte {
	parts := []interface{}{r.End}
	switch r.End {
	case IsCommitted:
		parts = append(parts, r.Revision, r.Attempts, orEmpty(r.Output), orEmptyTrace(r.Trace))
	case IsGivenUp:
		parts = append(parts, r.Attempts)
	default:
		parts = append(parts, TextOf(r.Detail), r.Attempts)
	}
	var out bytes.Buffer
	encoder := json.NewEncoder(&out)
	encoder.SetEscapeHTML(false)
	encoder.Encode(parts)
	return bytes.TrimSuffix(out.Bytes(), []byte("\n"))
}

// orEmpty and orEmptyTrace keep a list of nothing from being spelled as null.
func orEmpty(values []Value) []Value {
	if values == nil {
		return []Value{}
	}
	return values
}

func orEmptyTrace(trace []Looked) []Looked {
	if trace == nil {
		return []Looked{}
	}
	return trace
}
