package h26x

// #include <h26x.h>
import "C"

// An RTPPayload is where the payload of a packet lies in a buffer with others, and what the packet's header says of it
// (RFC 3550, 5.1): many such packets are given in one call.
type RTPPayload struct {
	// Begin and End are the places in the buffer: the payload is buffer[Begin:End].
	Begin, End int
	Timestamp  uint32
	Sequence   uint16
	Marker     bool
}

// A PushResult is what became of a packet that was given to an AccessUnitReceiver.
type PushResult struct {
	Pushed Pushed
	// Behind is how far it is behind the one that is due, where it is late.
	Behind uint16
}

// A ReceiveResult is what became of a packet that was given to a Receiver. Err is the error that Receive has for it; it
// was passed over then.
type ReceiveResult struct {
	Received
	Err error
}

// laid is payloads as C takes them, in memory that is kept.
func laid(payloads []RTPPayload, kept []C.h26x_rtp_payload) []C.h26x_rtp_payload {
	kept = kept[:0]
	for _, it := range payloads {
		kept = append(kept, C.h26x_rtp_payload{
			begin:     C.size_t(it.Begin),
			end:       C.size_t(it.End),
			timestamp: C.uint32_t(it.Timestamp),
			sequence:  C.uint16_t(it.Sequence),
			marker:    C.bool(it.Marker),
		})
	}
	return kept
}

// PushAll takes packets that came at this tick as Push does, in their order, by one call of the library. It answers how
// many aren't to be given again: all, or those before the first that is Full, or for which memory lacks. Take access units
// then, and give it and those behind it again. What became of each is written to results, as far as it has room; that one
// is Full stands there behind those that were taken.
//
// Its errors are ErrOutOfMemory; ErrOutOfRange, where a payload isn't in the buffer, of which none is taken; and ErrClosed.
func (r *AccessUnitReceiver) PushAll(now uint32, buffer []byte, payloads []RTPPayload,
	results []PushResult) (taken int, err error) {
	r.mu.Lock()
	defer r.mu.Unlock()
	call := r.call
	if call == nil {
		return 0, ErrClosed
	}
	if len(payloads) == 0 {
		return 0, nil
	}
	r.payloads = laid(payloads, r.payloads)
	if cap(r.told) < len(payloads) {
		r.told = make([]C.h26x_push_told, len(payloads))
	}
	told := r.told[:len(payloads)]
	code := C.h26x_access_units_push_all(&call.handle, C.uint32_t(now), at(buffer), C.size_t(len(buffer)), &r.payloads[0],
		C.size_t(len(payloads)), &told[0], C.size_t(len(told)), &call.taken)
	taken = int(call.taken)
	count := taken
	if code == C.H26X_OK && taken < len(payloads) {
		count++
	}
	for i, it := range told[:count] {
		if i == len(results) {
			break
		}
		results[i] = PushResult{Pushed(it.pushed), uint16(it.behind)}
	}
	return taken, refusedBy(code)
}

// ReceiveAll takes packets with their sequence numbers as ReceiveInto does, in their order, by one call of the library
// where dst has room for what they complete. It answers how many aren't to be given again: all, or those before the first
// for which memory lacks. One that is refused is passed over. What became of each is written to results, as far as it has
// room.
//
// Its errors are ErrOutOfMemory; ErrOutOfRange, where a payload isn't in the buffer, of which none is taken; and ErrClosed.
func (r *Receiver) ReceiveAll(dst, buffer []byte, payloads []RTPPayload,
	results []ReceiveResult) (out []byte, taken int, err error) {
	r.mu.Lock()
	defer r.mu.Unlock()
	if r.call == nil {
		return dst, 0, ErrClosed
	}
	r.payloads = laid(payloads, r.payloads)
	if cap(r.told) < len(payloads) {
		r.told = make([]C.h26x_receive_told, len(payloads))
	}
	for out = dst; taken < len(payloads); {
		var code C.uint32_t
		begin := len(out)
		told := r.told[:len(payloads)-taken]
		if out, told, code, err = r.receiveBehind(out, buffer, r.payloads[taken:], told); err != nil {
			return out, taken, err
		}
		for _, it := range told {
			end := begin + int(it.written)
			if taken < len(results) {
				results[taken] = received(it, out[begin:end:end])
			}
			begin = end
			taken++
		}
		if code != C.H26X_NO_ROOM && code != C.H26X_OK {
			return out, taken, refusedBy(code)
		}
	}
	return out, taken, nil
}

// receiveBehind has the library take payloads: what stands in out then, what is told of those that it took, and its code.
func (r *Receiver) receiveBehind(out, buffer []byte, payloads []C.h26x_rtp_payload,
	told []C.h26x_receive_told) ([]byte, []C.h26x_receive_told, C.uint32_t, error) {
	call := r.call
	out = withRoom(out, len(buffer)+beforeUnit*len(payloads))
	room := out[len(out):cap(out)]
	read := apart(buffer, room)
	code := C.h26x_receive_all(&call.handle, at(read), C.size_t(len(read)), &payloads[0], C.size_t(len(payloads)),
		at(room), C.size_t(len(room)), &told[0], C.size_t(len(told)), &call.taken, &call.written)
	told = told[:call.taken]
	out = out[:len(out)+int(call.written)]
	if code != C.H26X_NO_ROOM {
		return out, told, code, nil
	}
	out, err := withWritten(out, &call.handle.at, told[len(told)-1].written)
	return out, told, code, err
}

// received is what became of a packet, and the units that it completed.
func received(it C.h26x_receive_told, units []byte) ReceiveResult {
	if it.code != C.H26X_OK {
		return ReceiveResult{Err: refused(it.code, it.why)}
	}
	return ReceiveResult{Received: Received{Outcome(it.received), uint16(it.count), CodecExtra(it.extra), units}}
}
