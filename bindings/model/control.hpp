// Gives the calls that read and write RTCP, and count what is reported, drawn packets, and compares them with their model.
#ifndef CONTROL_HPP
#define CONTROL_HPP

#include "comparison.hpp"
#include "rtcp.hpp"

class Control : public Comparison {
public:
    using Comparison::Comparison;

    // What differs, or nullptr.
    const char *next()
    {
        switch (r.below(5)) {
        case 0:
            write_pli();
            break;
        case 1:
            write_fir();
            break;
        case 2:
            write_report();
            break;
        case 3:
            write_nack();
            break;
        default:
            for (int i = 0; i < 4; i++)
                count();
            return difference;
        }
        change();
        read();
        return difference;
    }

    rtp::Bytes drawn() const { return {packet.data(), packet.size()}; }

    // Whether something that is compared never came.
    bool lacks() const
    {
        return answers[H26X_OK] == 0 || answers[H26X_NO_ROOM] == 0 || plis == 0 || firs == 0 || reports == 0
            || nacks == 0 || longest == 0 || begun == 0 || jumps == 0;
    }

private:
    rtcp::Text packet;
    rtcp::Source source;
    h26x_rtp_statistics counted{};
    uint32_t clock = 0;
    uint64_t plis = 0, firs = 0, reports = 0, nacks = 0, longest = 0, begun = 0, jumps = 0;

    uint32_t word() { return r.one_in(8) ? UINT32_MAX - r.below(2) : static_cast<uint32_t>(r.draw()); }

    // ---- What is written ----

    void wrote(uint32_t code, size_t len, size_t room, const char *what)
    {
        written(code, len, room, H26X_OK, drawn(), 0, what);
    }

    void write_pli()
    {
        const uint32_t sender = word(), media = word();
        packet = rtcp::pli(sender, media);
        size_t len = 99;
        const size_t room = room_for(packet.size());
        const uint32_t code = h26x_pli_write(sender, media, to, room, &len);
        wrote(code, len, room, "h26x_pli_write");
    }

    void write_fir()
    {
        const uint32_t sender = word(), media = word();
        const auto number = static_cast<uint8_t>(r.draw());
        packet = rtcp::fir(sender, media, number);
        size_t len = 99;
        const size_t room = room_for(packet.size());
        const uint32_t code = h26x_fir_write(sender, media, number, to, room, &len);
        wrote(code, len, room, "h26x_fir_write");
    }

    int32_t lost()
    {
        const int32_t edge = r.of({0, -1, (1 << 23) - 1, 1 << 23, -(1 << 23), -(1 << 23) - 1, INT32_MAX, INT32_MIN});
        return r.one_in(3) ? edge : static_cast<int32_t>(r.draw()) >> r.below(32);
    }

    void write_report()
    {
        const uint32_t sender = word();
        const h26x_report it = {word(), lost(), word(), word(), word(), word(), static_cast<uint8_t>(r.draw())};
        packet = rtcp::report(sender, it);
        size_t len = 99;
        const size_t room = room_for(packet.size());
        const uint32_t code = h26x_receiver_report_write(sender, &it, to, room, &len);
        wrote(code, len, room, "h26x_receiver_report_write");
    }

    // Mostly in order, and close to each other; at times more than a packet has a place for.
    std::vector<uint16_t> numbers()
    {
        std::vector<uint16_t> all(r.one_in(1 << 12) ? r.from(65532, 65536) : r.below(r.one_in(4) ? 40 : 6));
        auto number = static_cast<uint16_t>(r.draw());
        for (uint16_t &it : all) {
            it = number;
            const uint32_t step = r.one_in(3) ? r.from(15, 18) : r.one_in(8) ? r.below(65536) : r.from(1, 4);
            number = static_cast<uint16_t>(number + (all.size() > 40 ? r.from(17, 40) : step));
        }
        return all;
    }

    void write_nack()
    {
        const uint32_t sender = word(), media = word();
        const std::vector<uint16_t> all = numbers();
        size_t len = 99, count = 99, wanted_count;
        const size_t room = r.one_in(3) ? r.below(120) : 12 + 4 * all.size() + r.of({0, 1, 16});
        packet = rtcp::nack(sender, media, all, room, wanted_count);
        longest += packet.size() == 4 * 65536;
        const uint32_t code = h26x_nack_write(sender, media, all.data(), all.size(), to, room, &len, &count);
        if (all.empty())
            packet.clear();
        const bool has_room = all.empty() || room >= 16;
        if (!has_room)
            packet.resize(16);
        wrote(code, len, room, "h26x_nack_write");
        is_same(count == (has_room ? wanted_count : 99), "h26x_nack_write");
    }

    // ---- What is read ----

    // Nothing, or one thing, of the packet is otherwise.
    void change()
    {
        if (packet.size() < 4 || r.one_in(2))
            return;
        const auto len = static_cast<uint32_t>(std::min<size_t>(packet.size(), 40));
        switch (r.below(8)) {
        case 0: // V, P or the five bits
            packet[0] ^= static_cast<uint8_t>(1 << r.below(8));
            break;
        case 1:
            packet[1] = static_cast<uint8_t>(r.one_in(2) ? r.from(200, 207) : r.below(256));
            break;
        case 2: // the length
            packet[3] = static_cast<uint8_t>(packet[3] + r.of({1, 255, 2, 254}));
            break;
        case 3:
            packet[2] = static_cast<uint8_t>(r.below(3));
            break;
        case 4: // bytes more, or fewer
            packet.resize(r.one_in(2) ? packet.size() + r.from(1, 8) : packet.size() - r.from(1, 4));
            break;
        case 5: // a pair more, or fewer, of what says so; at times it has none
            packet.resize(packet.size() + 4);
            if (r.one_in(2))
                packet.resize(r.one_in(2) ? 12 : 8 + r.below(3) * 4);
            packet = rtcp::ended(packet);
            break;
        case 6: // of the five bits and the packet type others that are known
            packet[0] = static_cast<uint8_t>(0x80 | r.of({0, 1, 4}));
            packet[1] = static_cast<uint8_t>(r.of({201, 205, 206}));
            break;
        default:
            packet[r.below(len)] = static_cast<uint8_t>(r.below(256));
        }
    }

    void read()
    {
        read_pli();
        read_fir();
        read_report();
        read_nack();
        if (r.one_in(4)) { // a compound
            const rtcp::Text first = packet;
            for (uint32_t count = r.below(3); count > 0; count--)
                packet.insert(packet.end(), first.begin(), first.end());
        }
        size_t from = 0;
        for (int i = 0; i < 4 && next_at(from); i++)
            continue;
        from = r.below(static_cast<uint32_t>(packet.size()) + 8);
        next_at(from);
    }

    bool next_at(size_t &from)
    {
        size_t len = 0, end = 99;
        const bool is_there =
            from <= packet.size() && rtcp::is_front({packet.data() + from, packet.size() - from}, len);
        const bool told = h26x_rtcp_next(packet.data(), packet.size(), from, &end);
        is_same(told == is_there && end == (is_there ? from + len : 99), "h26x_rtcp_next");
        from += len;
        return is_there;
    }

    void read_pli()
    {
        uint32_t sender = 99, media = 99, wanted_sender = 99, wanted_media = 99;
        const bool told = h26x_pli_read(packet.data(), packet.size(), &sender, &media);
        const bool wanted = rtcp::read_pli(drawn(), wanted_sender, wanted_media);
        is_same(told == wanted && sender == wanted_sender && media == wanted_media, "h26x_pli_read");
        plis += wanted;
    }

    void read_fir()
    {
        uint32_t sender = 99, media = 99, wanted_sender = 99, wanted_media = 99;
        uint8_t number = 99, wanted_number = 99;
        const bool told = h26x_fir_read(packet.data(), packet.size(), &sender, &media, &number);
        const bool wanted = rtcp::read_fir(drawn(), wanted_sender, wanted_media, wanted_number);
        is_same(told == wanted && sender == wanted_sender && media == wanted_media && number == wanted_number,
                "h26x_fir_read");
        firs += wanted;
    }

    void is_same_report(const h26x_report &a, const h26x_report &b, const char *what)
    {
        is_same(a.ssrc == b.ssrc && a.lost == b.lost && a.highest == b.highest && a.jitter == b.jitter
                    && a.last_sender_report == b.last_sender_report && a.delay == b.delay
                    && a.fraction_lost == b.fraction_lost,
                what);
    }

    void read_report()
    {
        uint32_t sender = 99, wanted_sender = 99;
        h26x_report it = left<h26x_report>(), wanted_it = it;
        const bool told = h26x_receiver_report_read(packet.data(), packet.size(), &sender, &it);
        const bool wanted = rtcp::read_report(drawn(), wanted_sender, wanted_it);
        is_same(told == wanted && sender == wanted_sender, "h26x_receiver_report_read");
        is_same_report(it, wanted_it, "h26x_receiver_report_read");
        reports += wanted;
    }

    void read_nack()
    {
        constexpr size_t MOST = 100;
        uint32_t sender = 99, media = 99, wanted_sender = 99, wanted_media = 99;
        size_t count = 99;
        const size_t room = r.below(r.one_in(2) ? MOST + 1 : 12);
        uint16_t all[MOST + 1];
        std::fill(all, all + MOST + 1, uint16_t{0xeeee});
        std::vector<uint16_t> wanted_all;
        const bool told = h26x_nack_read(packet.data(), packet.size(), &sender, &media, all, room, &count);
        const bool wanted = rtcp::read_nack(drawn(), wanted_sender, wanted_media, wanted_all);
        is_same(told == wanted && sender == wanted_sender && media == wanted_media, "h26x_nack_read");
        is_same(count == (wanted ? wanted_all.size() : 99), "h26x_nack_read");
        wanted_all.resize(wanted ? std::min(wanted_all.size(), room) : 0);
        wanted_all.resize(MOST + 1, 0xeeee);
        is_same(std::equal(all, all + MOST + 1, wanted_all.begin()), "h26x_nack_read");
        nacks += wanted;
    }

    // ---- What is counted ----

    // A number that goes on, or one of those about where one jumps.
    uint16_t number()
    {
        const auto highest = static_cast<uint32_t>(source.highest);
        uint32_t it = highest + 1;
        if (r.one_in(4))
            it = highest + r.of({0u, 2u, 7u, 2999u, 3000u, 3001u, 65536u - 1, 65536u - 99, 65536u - 100, 65536u - 101});
        if (source.bad >= 0 && r.one_in(3))
            it = static_cast<uint32_t>(source.bad) + (r.one_in(3) ? r.below(3) : 1) - 1;
        return static_cast<uint16_t>(r.one_in(40) ? r.below(65536) : it);
    }

    // As after any packets: all of it may be anything that it tells.
    void anew()
    {
        source = {};
        if (r.one_in(2)) {
            source.base = r.below(65536);
            source.highest = source.base + (r.draw() >> r.from(16, 63));
            source.received = 1 + (r.draw() >> r.from(16, 63));
            source.expected_before = r.below(3) * (source.expected() / 2);
            source.received_before = r.below(3) * (source.received / 2);
            source.bytes = r.one_in(4) ? UINT64_MAX - r.below(2000) : r.draw();
            source.recovered = r.one_in(4) ? UINT64_MAX - r.below(3) : r.draw();
            source.jitter = r.draw() >> r.from(2, 63);
            source.bad = r.one_in(2) ? -1 : int64_t{r.below(65536)};
            source.transit = r.one_in(4) ? -1 : int64_t{word()};
        }
        counted = {};
        counted.expected = source.expected();
        counted.received = source.received;
        counted.bytes = source.bytes;
        counted.recovered = source.recovered;
        counted.jitter = source.jitter;
        counted.expected_before = source.expected_before;
        counted.received_before = source.received_before;
        counted.has_transit = source.transit >= 0;
        counted.transit = static_cast<uint32_t>(counted.has_transit ? source.transit : 0);
        counted.base = static_cast<uint16_t>(source.base);
        counted.highest = static_cast<uint16_t>(source.highest);
        counted.has_jumped = source.bad >= 0;
        counted.after_jump = static_cast<uint16_t>(counted.has_jumped ? source.bad : 0);
    }

    void is_counted(const char *what)
    {
        const rtcp::Source &it = source;
        const h26x_rtp_statistics &a = counted;
        is_same(a.expected == it.expected() && a.received == it.received && a.bytes == it.bytes
                    && a.recovered == it.recovered && a.jitter == it.jitter && a.expected_before == it.expected_before
                    && a.received_before == it.received_before,
                what);
        is_same(byte_of(a.has_transit) == (it.transit >= 0) && byte_of(a.has_jumped) == (it.bad >= 0), what);
        is_same(it.transit < 0 || a.transit == it.transit, what);
        is_same(it.bad < 0 || a.after_jump == it.bad, what);
        is_same(it.received == 0 || (a.base == it.base && a.highest == it.highest % 65536), what);
    }

    void count()
    {
        if (r.one_in(200))
            anew();
        clock += r.one_in(20) ? word() : r.below(4000);
        const uint32_t timestamp = clock - (r.one_in(20) ? word() : r.below(2000));
        const uint16_t sequence = number();
        const size_t size = r.below(1400);
        const uint64_t before = source.received;
        const bool told = h26x_rtp_statistics_receive(&counted, clock, sequence, timestamp, size);
        const bool wanted = rtcp::receive(source, clock, sequence, timestamp, size);
        jumps += !wanted;
        begun += wanted && before > 1 && source.received == 1;
        is_same(told == wanted, "h26x_rtp_statistics_receive");
        is_counted("h26x_rtp_statistics_receive");
        if (r.one_in(8)) {
            h26x_rtp_statistics_recover(&counted);
            rtcp::recover(source);
            is_counted("h26x_rtp_statistics_recover");
        }
        if (r.one_in(8))
            report();
    }

    void report()
    {
        const uint32_t ssrc = word(), last = word(), delay = word();
        h26x_report it = left<h26x_report>();
        h26x_rtp_statistics_report(&counted, ssrc, last, delay, &it);
        is_same_report(it, rtcp::reported(source, ssrc, last, delay), "h26x_rtp_statistics_report");
        is_counted("h26x_rtp_statistics_report");
    }
};

#endif
