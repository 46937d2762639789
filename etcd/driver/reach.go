package main

import (
	"fmt"

	"stmprogram/reading"
)

// noKeys stands for the end of a range that has no keys; no text of a scenario is this, as it is no UTF-8.
const noKeys = "\xff"

// scratchKey moves a new store to the revision that it is to open at. It is no UTF-8 and above every key and end of a scenario.
const scratchKey = "\xff"

// highestReach is the highest revision that a new store is moved to.
const highestReach = 1000

// outOfReach says what of a scenario a real etcd cannot be driven to.
type outOfReach struct {
	place, name, reason string
}

func (o *outOfReach) Error() string {
	return fmt.Sprintf("out of reach at %s: %s: %s", o.place, o.name, o.reason)
}

// checkReach returns the first event that a real etcd cannot be driven to.
func checkReach(s *scenario) error {
	if s.begin == 2 || s.begin > highestReach {
		return &outOfReach{"/0/1", "Begin", "an empty etcd can be brought to revision 1 and to those from 3 to 1000"}
	}
	for i, one := range s.events {
		if err := checkEvent(one, s.places[i]); err != nil {
			return err
		}
	}
	return nil
}

func checkEvent(one event, place string) error {
	switch e := one.(type) {
	case *grantEvent:
		if e.id == 0 {
			return &outOfReach{reading.Within(place, 1), "LeaseIdOutOfRange", "etcd picks an id of its own for 0"}
		}
		if e.ttl == 0 || e.ttl > mostLeaseTime {
			return &outOfReach{reading.Within(place, 2), "TtlOutOfRange", "the lease's time is told to etcd as another one, from 1 to 9000000000"}
		}
	case *compactEvent:
		if e.revision == 0 {
			return &outOfReach{reading.Within(place, 1), "Compact", "etcd takes a compaction at 0 where it was never compacted"}
		}
	case *watchEvent:
		if e.first == "" {
			return &outOfReach{reading.Within(place, 1), "EmptyKey", "etcd takes the empty key for the key of one zero byte"}
		}
		if e.end == noKeys {
			return &outOfReach{reading.Within(place, 2), "EmptyRange", "etcd watches no range whose end is not above its first key"}
		}
	}
	return nil
}
