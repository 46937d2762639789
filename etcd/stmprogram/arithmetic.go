package stmprogram

import (
	"math"
	"math/bits"
	"strconv"
)

func joined(left, right Value) (Value, error) {
	if !left.IsText || !right.IsText {
		return Value{}, Faulted("Kind")
	}
	if len(left.Text)+len(right.Text) > longestText {
		return Value{}, Faulted("TextTooLong")
	}
	return TextOf(left.Text + right.Text), nil
}

// written is the number that a text writes: an optional minus, then digits.
func written(v Value) (Value, error) {
	if !v.IsText {
		return Value{}, Faulted("Kind")
	}
	number, err := strconv.ParseInt(v.Text, 10, 64)
	if err != nil || v.Text[0] == '+' {
		return Value{}, Faulted("NotANumber")
	}
	return NumberOf(number), nil
}

func computed(word string, left, right Value) (Value, error) {
	if left.IsText || right.IsText {
		return Value{}, Faulted("Kind")
	}
	a, b := left.Number, right.Number
	if word == "div" || word == "rem" {
		return divided(word, a, b)
	}
	result, fits := int64(0), false
	switch word {
	case "add":
		result = a + b
		fits = (result > a) == (b > 0)
	case "sub":
		result = a - b
		fits = (result < a) == (b > 0)
	case "mul":
		result, fits = product(a, b)
	}
	if !fits {
		return Value{}, Faulted("Overflow")
	}
	return NumberOf(result), nil
}

func divided(word string, a, b int64) (Value, error) {
	switch {
	case b == 0:
		return Value{}, Faulted("ZeroDivisor")
	case a == math.MinInt64 && b == -1:
		return Value{}, Faulted("Overflow")
	case word == "div":
		return NumberOf(a / b), nil
	}
	return NumberOf(a % b), nil
}

// product multiplies, and says whether the result fits.
func product(a, b int64) (int64, bool) {
	high, low := bits.Mul64(magnitude(a), magnitude(b))
	if high != 0 {
		return 0, false
	}
	if (a < 0) != (b < 0) {
		return -int64(low), low <= 1<<63
	}
	return int64(low), low < 1<<63
}

func magnitude(a int64) uint64 {
	if a < 0 {
		return -uint64(a)
	}
	return uint64(a)
}
