package stmprogram

import "strconv"

// Memory is what a program asks its keys of: the four calls of concurrency.STM, of which Over makes one.
type Memory interface {
	// Get returns the value of a key, "" where it is absent.
	Get(key string) string
	// Rev returns the revision of the last put of a key, 0 where it is absent.
	Rev(key string) int64
	// Put puts a value, on a lease where it is not 0.
	Put(key, value string, lease int64)
	// Del deletes a key.
	Del(key string)
}

// Aborted is the end of an attempt by the program's own choice.
type Aborted struct{ Text string }

func (a Aborted) Error() string { return "aborted: " + a.Text }

// Faulted is the end of an attempt by a fault: Kind, Overflow, ZeroDivisor, NotANumber, LoopTooLong, TurnLimit, TextTooLong or EmptyKey.
type Faulted string

func (f Faulted) Error() string { return "faulted: " + string(f) }

// Attempt is one run of a program's statements over a memory.
type Attempt struct {
	// Output has the values that the program emitted, in order.
	Output []Value
	// Trace has an item for each get and rev, in order, those of written keys too.
	Trace []Looked
	// Stopped is where the run came to its fault, nil where it came to none.
	Stopped *Stopped

	memory    Memory
	variables [16]Value
	turns     int
}

// Attempt runs the program's statements over a memory. The error is Aborted or Faulted where the program ended so, and nil where it came to its end; what it
// put and deleted has then been told to the memory, and nothing is committed yet. The attempt has what was emitted and looked up until then.
func (p *Program) Attempt(memory Memory) (*Attempt, error) {
	a := &Attempt{memory: memory}
	return a, a.Run(p)
}

// NewAttempt makes an attempt that has not begun, for a caller that looks at it while it runs.
func NewAttempt(memory Memory) *Attempt { return &Attempt{memory: memory} }

// Run runs a program's statements, once for each attempt.
func (a *Attempt) Run(p *Program) error { return a.run(p.statements) }

// run runs a list of statements; its error is the end by an abort or a fault.
func (a *Attempt) run(statements []*node) error {
	for _, statement := range statements {
		if err := a.statement(statement); err != nil {
			return err
		}
	}
	return nil
}

// noted keeps where a fault comes from: the innermost node that it passes.
func (a *Attempt) noted(n *node, values []Value, err error) error {
	if _, isFault := err.(Faulted); isFault && a.Stopped == nil {
		a.Stopped = &Stopped{n.place, values}
	}
	return err
}

func (a *Attempt) statement(n *node) error {
	switch n.word {
	case "if":
		holds, err := a.holds(n.parts[0])
		if err != nil {
			return err
		}
		if holds {
			return a.run(n.blocks[0])
		}
		return a.run(n.blocks[1])
	case "for":
		return a.loop(n)
	}
	values, err := a.all(n.parts)
	if err != nil {
		return err
	}
	return a.noted(n, values, a.simple(n, values))
}

// simple runs a statement that has no other in it, by the values of its parts.
func (a *Attempt) simple(n *node, values []Value) error {
	switch n.word {
	case "set":
		a.variables[n.variable] = values[0]
	case "emit":
		a.Output = append(a.Output, values[0])
	case "abort":
		if !values[0].IsText {
			return Faulted("Kind")
		}
		return Aborted{values[0].Text}
	case "put":
		return a.put(values[0], values[1], n.lease)
	case "del":
		return a.del(values[0])
	}
	return nil
}

func (a *Attempt) loop(n *node) error {
	count, err := a.evaluate(n.parts[0])
	switch {
	case err != nil:
		return err
	case count.IsText:
		return a.noted(n, []Value{count}, Faulted("Kind"))
	case count.Number > n.limit:
		return a.noted(n, []Value{count}, Faulted("LoopTooLong"))
	}
	for turn := int64(0); turn < count.Number; turn++ {
		if a.turns == mostTurns {
			return a.noted(n, nil, Faulted("TurnLimit"))
		}
		a.turns++
		a.variables[n.variable] = NumberOf(turn)
		if err := a.run(n.blocks[0]); err != nil {
			return err
		}
	}
	return nil
}

// keyIn is a text that is not empty.
func keyIn(v Value) (string, error) {
	if !v.IsText {
		return "", Faulted("Kind")
	}
	if v.Text == "" {
		return "", Faulted("EmptyKey")
	}
	return v.Text, nil
}

func (a *Attempt) put(key, content Value, lease int64) error {
	if !key.IsText || !content.IsText {
		return Faulted("Kind")
	}
	name, err := keyIn(key)
	if err != nil {
		return err
	}
	a.memory.Put(name, content.Text, lease)
	return nil
}

func (a *Attempt) del(key Value) error {
	name, err := keyIn(key)
	if err != nil {
		return err
	}
	a.memory.Del(name)
	return nil
}

func (a *Attempt) get(key Value) (Value, error) {
	name, err := keyIn(key)
	if err != nil {
		return Value{}, err
	}
	return a.looked("get", name, TextOf(a.memory.Get(name))), nil
}

func (a *Attempt) rev(key Value) (Value, error) {
	name, err := keyIn(key)
	if err != nil {
		return Value{}, err
	}
	return a.looked("rev", name, NumberOf(a.memory.Rev(name))), nil
}

// looked adds an item to the trace, and returns its value.
func (a *Attempt) looked(word, key string, value Value) Value {
	a.Trace = append(a.Trace, Looked{word, key, value})
	return value
}

// all evaluates expressions from left to right.
func (a *Attempt) all(parts []*node) ([]Value, error) {
	values := make([]Value, 0, len(parts))
	for _, part := range parts {
		v, err := a.evaluate(part)
		if err != nil {
			return nil, err
		}
		values = append(values, v)
	}
	return values, nil
}

func (a *Attempt) evaluate(n *node) (Value, error) {
	switch n.word {
	case "text":
		return TextOf(n.text), nil
	case "number":
		return NumberOf(n.number), nil
	case "var":
		return a.variables[n.variable], nil
	}
	values, err := a.all(n.parts)
	if err != nil {
		return Value{}, err
	}
	value, err := a.valueOf(n.word, values)
	return value, a.noted(n, values, err)
}

// valueOf is the value of an expression that begins with this word, by those of its parts.
func (a *Attempt) valueOf(word string, values []Value) (Value, error) {
	switch word {
	case "get":
		return a.get(values[0])
	case "rev":
		return a.rev(values[0])
	case "cat":
		return joined(values[0], values[1])
	case "text_of":
		if values[0].IsText {
			return Value{}, Faulted("Kind")
		}
		return TextOf(strconv.FormatInt(values[0].Number, 10)), nil
	case "num_of":
		return written(values[0])
	}
	return computed(word, values[0], values[1])
}

func (a *Attempt) holds(n *node) (bool, error) {
	switch n.word {
	case "not":
		holds, err := a.holds(n.parts[0])
		return !holds, err
	case "and", "or":
		holds, err := a.holds(n.parts[0])
		if err != nil || holds == (n.word == "or") {
			return holds, err
		}
		return a.holds(n.parts[1])
	}
	values, err := a.all(n.parts)
	if err != nil {
		return false, err
	}
	left, right := values[0], values[1]
	if left.IsText != right.IsText {
		return false, a.noted(n, values, Faulted("Kind"))
	}
	if n.word == "eq" {
		return left == right, nil
	}
	if left.IsText {
		return left.Text < right.Text, nil
	}
	return left.Number < right.Number, nil
}
