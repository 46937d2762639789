package stmprogram

import (
	"bytes"
	"encoding/json"
	"errors"
	"fmt"
	"sort"
	"strconv"
	"strings"

	"stmprogram/reading"
)

// longestShown is how many bytes of a value an explanation shows.
const longestShown = 60

// Position is a place in a text as editors count it: lines and bytes from 1.
func Position(text []byte, offset int) (line, column int) {
	before := text[:offset]
	return 1 + bytes.Count(before, []byte("\n")), offset - bytes.LastIndexByte(before, '\n')
}

// Explained says of a fault of Load where in the text it stands, by the byte, and what was found and is wanted there.
func Explained(text []byte, fault *reading.Fault) (offset int, words string) {
	value, err := reading.Value(text)
	if err != nil {
		return broken(text, fault)
	}
	kind, steps := 'b', reading.Steps(fault.Place)
	for _, step := range steps {
		kind, value = within(kind, value, step)
	}
	return reading.Offset(text, steps), wanted(kind, value, fault.Cause)
}

// broken says of a text that is no JSON where it stops being so.
func broken(text []byte, fault *reading.Fault) (offset int, words string) {
	var value interface{}
	var syntax *json.SyntaxError
	if errors.As(json.Unmarshal(text, &value), &syntax) && syntax.Offset > 0 {
		return int(syntax.Offset) - 1, "no JSON: " + syntax.Error()
	}
	return 0, strings.TrimPrefix(fault.Error(), "at : ")
}

// within is what is wanted at an element of a value of a kind, and that element. The kinds are those of the forms, and s a statement, p the list that each attempt
// reads first, k the keys in it, t one of them.
func within(kind rune, value interface{}, step int) (rune, interface{}) {
	elements, _ := value.([]interface{})
	if step >= len(elements) {
		return 'x', nil
	}
	element := elements[step]
	switch kind {
	case 'b':
		if step == 0 && reading.BeginsWith(element, "prefetch") {
			return 'p', element
		}
		return 's', element
	case 'p':
		return 'k', element
	case 'k':
		return 't', element
	}
	word, _ := elements[0].(string)
	if form := formsOf(kind)[word]; step > 0 && step <= len(form) {
		return rune(form[step-1]), element
	}
	return 'x', element
}

// formsOf are the forms of a kind of nodes.
func formsOf(kind rune) map[string]string {
	switch kind {
	case 's':
		return statementForms
	case 'e':
		return expressionForms
	case 'c':
		return conditionForms
	}
	return nil
}

// kindNames are what is wanted where no word is asked for.
var kindNames = map[rune]string{
	'b': "a list of statements", 'v': "a variable, 0 to 15,", 'l': "a lease, 0 to 9223372036854775807 (0 for none),", 'n': "a limit of a loop, 0 to 1000,",
	's': "a statement", 'e': "a text, a number or an expression", 'c': "a condition", 'k': "a list of keys", 'p': `["prefetch",[KEY,..]]`,
	't': "a text that is not empty and stands in the list once", 'x': "something else",
}

// wanted says what was found where something of a kind is wanted.
func wanted(kind rune, value interface{}, cause string) string {
	switch cause {
	case "TooDeep":
		return fmt.Sprintf("a node more than %d levels deep", deepestNode)
	case "TooManyNodes":
		return fmt.Sprintf("more than %d nodes", mostNodes)
	case "TooLong":
		return fmt.Sprintf("a text of more than %d bytes", longestText)
	case "TooMany":
		return fmt.Sprintf("more than %d keys", mostListed)
	}
	forms := formsOf(kind)
	if elements, isArray := value.([]interface{}); isArray && len(elements) > 0 {
		word, _ := elements[0].(string)
		if form, isKnown := forms[word]; isKnown {
			return fmt.Sprintf("elements after %q: %d found, %d wanted: %s", word, len(elements)-1, len(form), spelledForm(word, form))
		}
	}
	words := fmt.Sprintf("found %s, where %s is wanted", shown(value), kindNames[kind])
	if forms != nil {
		words += ": an array that begins with one of " + wordsOf(forms)
	}
	return words
}

// spelledForm spells the array of a word.
func spelledForm(word, form string) string {
	names := map[rune]string{'e': "EXPRESSION", 'c': "CONDITION", 'b': "[STATEMENT,..]", 'v': "VARIABLE", 'l': "LEASE", 'n': "LIMIT"}
	spelled := `["` + word + `"`
	for _, kind := range form {
		spelled += "," + names[kind]
	}
	return spelled + "]"
}

func wordsOf(forms map[string]string) string {
	words := make([]string, 0, len(forms))
	for word := range forms {
		words = append(words, word)
	}
	sort.Strings(words)
	return strings.Join(words, ", ")
}

// shown is a value as a terminal may show it, cut where it is long.
func shown(value interface{}) string {
	spelled, _ := json.Marshal(value)
	text := strconv.QuoteToASCII(string(spelled))
	text = strings.ReplaceAll(text[1:len(text)-1], `\"`, `"`)
	if len(text) > longestShown {
		text = text[:longestShown] + ".."
	}
	return text
}

// Stopped is the node at which a run came to its fault: its place, and the values of its parts, as far as they were there.
type Stopped struct {
	Place  string
	Values []Value
}

// Reason says at which place a run stopped, and on which values.
func (s *Stopped) Reason(fault string) string {
	words := fault + " at " + s.Place
	for i, value := range s.Values {
		words += map[bool]string{true: ": of ", false: " and "}[i == 0]
		if value.IsText {
			words += shown(value.Text)
		} else {
			words += strconv.FormatInt(value.Number, 10)
		}
	}
	return words
}
