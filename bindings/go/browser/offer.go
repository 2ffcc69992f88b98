package main

import (
	"errors"
	"fmt"
	"strings"

	"emupedestal/h26x"

	"github.com/pion/webrtc/v3"
)

const clockRate = h26x.ClockRate

// answered is the first format of H.264 of an offer that ours answers: no RTX, which this Pion doesn't bring, so what is lost
// goes again as it was.
func answered(offer string, ours *h26x.FormatParameters) (format webrtc.RTPCodecParameters, err error) {
	maps, formats := formatsOf(offer)
	for _, it := range maps {
		offered, err := h26x.ReadFormatParameters(it.Codec, formats[it.PayloadType])
		if err != nil {
			return format, err
		}
		answer, err := offered.AnswerWebRTC(ours, false)
		if errors.Is(err, h26x.ErrSDPNoAnswer) {
			continue
		}
		if err != nil {
			return format, err
		}
		format.PayloadType = webrtc.PayloadType(it.PayloadType)
		format.RTPCodecCapability = webrtc.RTPCodecCapability{
			MimeType: webrtc.MimeTypeH264, ClockRate: clockRate, SDPFmtpLine: answer.String(),
			RTCPFeedback: []webrtc.RTCPFeedback{{Type: "nack"}, {Type: "nack", Parameter: "pli"}},
		}
		return format, nil
	}
	return format, errors.New("the browser offers no H.264 that is ours")
}

// formatsOf are the payload types of H.264 in an offer, the most wanted first, and what is said of each.
func formatsOf(offer string) (maps []h26x.RTPMap, formats map[uint8]string) {
	formats = map[uint8]string{}
	for _, line := range strings.Split(offer, "\r\n") {
		if text := strings.TrimPrefix(line, "a=rtpmap:"); text != line {
			if it, err := h26x.ReadRTPMap(text); err == nil && it.Codec == h26x.H264 {
				maps = append(maps, it)
			}
		}
		var payloadType uint8
		if _, err := fmt.Sscanf(line, "a=fmtp:%d", &payloadType); err == nil {
			formats[payloadType] = line[strings.IndexByte(line+" ", ' '):]
		}
	}
	return maps, formats
}

// withFormat is an answer of Pion's, which has what was offered, with what we answer.
func withFormat(answer string, format webrtc.RTPCodecParameters) string {
	begin := fmt.Sprintf("a=fmtp:%d ", format.PayloadType)
	lines := strings.Split(answer, "\r\n")
	for i, line := range lines {
		if strings.HasPrefix(line, begin) {
			lines[i] = begin + format.SDPFmtpLine
		}
	}
	return strings.Join(lines, "\r\n")
}
