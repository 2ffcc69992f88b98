//go:build cgo

// Package h26x carries H.264, H.265 and H.266 as RTP payloads (RFC 6184, RFC 7798, RFC 9328), over the
// library libh26x.
//
// A [Packetizer] cuts encoded video into RTP payloads within a limit. A [Depacketizer] puts the units
// together again, a [Receiver] does where packets come with their sequence numbers and some may be
// missing, and an [AccessUnitReceiver] gives out access units of packets that come in any order; an
// [RTPReceiver] does of whole datagrams, which an [RTPSender] makes. RTP's own header, RTX and some of RTCP
// are read and written, and RED is read ([ReadRTP], [RTPHeader.WriteBefore]). [FormatParameters] of SDP are
// read and answered.
//
// A Packetizer has the method of Pion's rtp.Payloader, and a Depacketizer those of its
// rtp.Depacketizer, so they go where Pion asks for these.
//
// # Words
//
// DONL stands for decoding order numbers (DON; DONL and DOND in packets). The open unit is one of which
// fragments came and the last one didn't yet; its data is called the run. A unit is a NAL unit without
// its start code, a set a parameter set (VPS, SPS, PPS).
//
// # Handles
//
// Each Packetizer, Depacketizer, Receiver, AccessUnitReceiver, RTPReceiver, RTPSender and FormatParameters holds memory
// of the library. Close frees it; what isn't closed is freed some time after it can't be reached. Every other call
// that answers errors answers [ErrClosed] behind Close, and so it does of a value that no call made.
// Goroutines may share an object: by a lock a call that changes it runs alone, and those that only look at
// it (Clone, Equal, PacketsSize, Shown, RunLen, Deadline, Missing, Counts, Sources, Statistics, Streams, Sent, and all of
// FormatParameters but Close, Set and Unset) run at once. It must not be copied.
//
// # Bytes
//
// No call keeps a slice that it is given. What is read must not be written by another goroutine
// meanwhile. Where what is read lies in memory that is written, it is copied first.
//
// # What is proved
//
// The library, as far as the contracts of its exported calls go. This package is only tested.
package h26x
