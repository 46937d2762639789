// Package reading reads JSON texts part by part, each with its place: a Fault names the first part that is wrong, and why.
package reading

import (
	"bytes"
	"encoding/json"
	"io"
	"math"
	"strconv"
	"strings"
	"unicode/utf8"
)

// LongestInput is how many bytes a text has at most.
const LongestInput = 16777216

// deepestNesting is how deep arrays and objects may nest.
const deepestNesting = 127

// Fault says where a text is not in its grammar, and why: a JSON Pointer and a cause.
type Fault struct {
	Place, Cause string
}

func (f *Fault) Error() string {
	return "at " + f.Place + ": " + f.Cause
}

// Within is the place of an element of an array.
func Within(place string, index int) string {
	return place + "/" + strconv.Itoa(index)
}

// Steps are the indices of a place.
func Steps(place string) []int {
	steps := []int{}
	for _, step := range strings.Split(place, "/")[1:] {
		index, _ := strconv.Atoi(step)
		steps = append(steps, index)
	}
	return steps
}

// Offset is the byte at which the value at a place begins, in a text that is JSON and has arrays on the way there.
func Offset(text []byte, steps []int) int {
	decoder := json.NewDecoder(bytes.NewReader(text))
	for _, step := range steps {
		decoder.Token()
		for i := 0; i < step; i++ {
			var passed json.RawMessage
			decoder.Decode(&passed)
		}
	}
	rest := text[decoder.InputOffset():]
	return len(text) - len(bytes.TrimLeft(rest, ", \t\r\n"))
}

// Value reads a text as one JSON value whose numbers keep their spelling.
func Value(text []byte) (interface{}, error) {
	if len(text) > LongestInput {
		return nil, &Fault{"", "TooLong"}
	}
	notJSON := &Fault{"", "NotJson"}
	if !utf8.Valid(text) || nestsTooDeep(text) {
		return nil, notJSON
	}
	decoder := json.NewDecoder(bytes.NewReader(text))
	decoder.UseNumber()
	var value interface{}
	if decoder.Decode(&value) != nil {
		return nil, notJSON
	}
	if _, err := decoder.Token(); err != io.EOF {
		return nil, notJSON
	}
	if hasLoneSurrogate(text) || hasHugeNumber(value) {
		return nil, notJSON
	}
	return value, nil
}

// nestsTooDeep counts the brackets outside of texts.
func nestsTooDeep(text []byte) bool {
	depth, inText := 0, false
	for i := 0; i < len(text); i++ {
		switch c := text[i]; {
		case inText && c == '\\':
			i++
		case c == '"':
			inText = !inText
		case !inText && (c == '[' || c == '{'):
			depth++
			if depth > deepestNesting {
				return true
			}
		case !inText && (c == ']' || c == '}'):
			depth--
		}
	}
	return false
}

// hasLoneSurrogate looks for an escape of half a surrogate pair; the text is JSON.
func hasLoneSurrogate(text []byte) bool {
	for i := 0; i < len(text); i++ {
		if text[i] != '\\' {
			continue
		}
		i++
		code := escapedCode(text, i)
		if code < 0xd800 || code > 0xdfff {
			continue
		}
		low := -1
		if i+6 < len(text) && text[i+5] == '\\' {
			low = escapedCode(text, i+6)
		}
		if code > 0xdbff || low < 0xdc00 || low > 0xdfff {
			return true
		}
		i += 6
	}
	return false
}

// escapedCode is the number of an escape uXXXX that begins at a place, and -1 where another escape does.
func escapedCode(text []byte, i int) int {
	if text[i] != 'u' || i+5 > len(text) {
		return -1
	}
	code, err := strconv.ParseUint(string(text[i+1:i+5]), 16, 32)
	if err != nil {
		return -1
	}
	return int(code)
}

// hasHugeNumber looks for a number that no float of 64 bits holds.
func hasHugeNumber(value interface{}) bool {
	switch v := value.(type) {
	case json.Number:
		_, err := strconv.ParseFloat(v.String(), 64)
		return err != nil
	case []interface{}:
		for _, element := range v {
			if hasHugeNumber(element) {
				return true
			}
		}
	case map[string]interface{}:
		for _, element := range v {
			if hasHugeNumber(element) {
				return true
			}
		}
	}
	return false
}

// Array reads an array.
func Array(value interface{}, place string) ([]interface{}, error) {
	elements, isArray := value.([]interface{})
	if !isArray {
		return nil, &Fault{place, "Shape"}
	}
	return elements, nil
}

// Word reads an array that begins with a word; lengths has the length of each known word's array.
func Word(value interface{}, place string, lengths map[string]int) (string, []interface{}, error) {
	elements, err := Array(value, place)
	if err != nil {
		return "", nil, err
	}
	if len(elements) > 0 {
		word, isText := elements[0].(string)
		if length, isKnown := lengths[word]; isText && isKnown && length == len(elements) {
			return word, elements, nil
		}
	}
	return "", nil, &Fault{place, "Shape"}
}

// Text reads a text.
func Text(value interface{}, place string) (string, error) {
	text, isText := value.(string)
	if !isText {
		return "", &Fault{place, "Shape"}
	}
	return text, nil
}

// Number reads a whole number of a range.
func Number(value interface{}, place string, least, most int64) (int64, error) {
	spelling, isNumber := value.(json.Number)
	text := spelling.String()
	if !isNumber || text == "-0" || strings.ContainsAny(text, ".eE") {
		return 0, &Fault{place, "Shape"}
	}
	number, err := strconv.ParseInt(text, 10, 64)
	if err != nil {
		if _, err := strconv.ParseUint(text, 10, 64); err != nil {
			return 0, &Fault{place, "Shape"}
		}
		return 0, &Fault{place, "Range"}
	}
	if number < least || number > most {
		return 0, &Fault{place, "Range"}
	}
	return number, nil
}

// Count reads a whole number from 0 on.
func Count(value interface{}, place string) (int64, error) {
	return Number(value, place, 0, math.MaxInt64)
}

// BeginsWith says whether a value is an array that begins with this word.
func BeginsWith(value interface{}, word string) bool {
	elements, isArray := value.([]interface{})
	return isArray && len(elements) > 0 && elements[0] == word
}
