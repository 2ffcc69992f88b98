# Draws what builds of the program measured as a picture (SVG): a bar for each case, from the line at
# 1, where a call takes as long as str0m's, to its ratio. Of two builds the greater ratio counts.
#
#     awk -v about="machine, date" -f picture.awk FILE... > beside.svg

BEGIN {
    FS = "\t"
    colors = "#2f6db5 #c2571a #e9a978 #2b8a57 #8fcbab"
    titles["packetize"] = "Packetizing: the crate's packetize"
    titles["take"] = "Taking the packets: the crate's depacketize"
    width = 1000; margin = 20; panel = 470; scale = 430; top = 108; bar = 10; heading = 16; gap = 8
    least = 0.5; greatest = 2
}

$4 == "crate" || $4 == "library" {
    name[$1, once($1, $2)] = $2
    format[once("format", $3)] = $3
    key = $1 FS $2 FS $3 FS $4
    if (!(key in ratio) || $6 + 0 > ratio[key])
        ratio[key] = $6 + 0
    if ($6 + 0 < least)
        least = $6 + 0
}

END {
    for (key in ratio)
        if (ratio[key] > greatest)
            greatest = ratio[key]
    low = floor(octave(least)) - 1
    high = -floor(-octave(greatest)) + 1
    groups = count["packetize"] > count["take"] ? count["packetize"] : count["take"]
    height = top + groups * (heading + count["format"] * bar + gap) + 34
    head()
    draw("packetize", margin)
    draw("take", width - margin - panel)
    print "</svg>"
}

# The number of a word among those of its kind, counted from 1 in the order in which they come.
function once(kind, word) {
    if (!((kind, word) in seen))
        seen[kind, word] = ++count[kind]
    return seen[kind, word]
}

function octave(x) { return log(x) / log(2) }

function floor(x) { return int(x) - (int(x) > x) }

function escaped(text) {
    gsub(/&/, "\\&amp;", text); gsub(/</, "\\&lt;", text); gsub(/>/, "\\&gt;", text)
    return text
}

# Where a ratio stands in a panel.
function at(ratio) { return left + (octave(ratio) - low) / (high - low) * scale }

function text(x, y, size, anchor, said) {
    printf "<text x=\"%.1f\" y=\"%.1f\" font-size=\"%d\" text-anchor=\"%s\">%s</text>\n", \
        x, y, size, anchor, escaped(said)
}

function rectangle(x, y, wide, tall, color) {
    printf "<rect x=\"%.1f\" y=\"%.1f\" width=\"%.1f\" height=\"%.1f\" fill=\"%s\"/>\n", x, y, wide, tall, color
}

# A line from the top of all bars to their end.
function upright(x, color) { rectangle(x - 0.5, top, 1, height - top - 30, color) }

# The background, the titles and what the colours mean.
function head(   i, x) {
    printf "<svg xmlns=\"http://www.w3.org/2000/svg\" viewBox=\"0 0 %d %d\" width=\"%d\" height=\"%d\"", \
        width, height, width, height
    print " font-family=\"sans-serif\" fill=\"#1f2933\">"
    rectangle(0, 0, width, height, "#ffffff")
    text(margin, 26, 17, "start", "Time of emupedestal's calls, str0m's being 1")
    text(margin, 44, 11, "start", about)
    split(colors, color, " ")
    x = margin
    for (i = 1; i <= count["format"]; i++) {
        rectangle(x, 56, 12, 10, color[i])
        text(x + 17, 65, 11, "start", format[i])
        x += 40 + 7 * length(format[i])
    }
    rectangle(x + 4, 55, 2, 12, "#000000")
    text(x + 11, 65, 11, "start", "the library's call alone, without the Rust crate")
}

# The cases of a call, with `start` as the left end.
function draw(call, start,   i, j, y, tick) {
    left = start
    text(left, 90, 13, "start", titles[call])
    for (tick = low + 1; tick < high; tick++) {
        upright(at(2 ^ tick), tick == 0 ? "#1f2933" : "#d9dee3")
        text(at(2 ^ tick), height - 18, 10, "middle", sprintf("%.2g", 2 ^ tick))
    }
    text(at(1) - 12, top - 4, 10, "end", "faster than str0m")
    text(at(1) + 12, top - 4, 10, "start", "slower")
    text(left + panel, top - 4, 10, "end", "ratio")
    y = top
    for (i = 1; i <= count[call]; i++) {
        y += heading
        rectangle(left, y - heading + 3, 6.2 * length(name[call, i]), heading - 4, "#ffffff")
        text(left, y - 4, 11, "start", name[call, i])
        for (j = 1; j <= count["format"]; j++) {
            one(call FS name[call, i] FS format[j], y, color[j])
            y += bar
        }
        y += gap
    }
}

# One bar, a mark where the library's ratio is, and the bar's ratio at the right.
function one(key, y, color,   end, first) {
    if (!((key FS "crate") in ratio))
        return
    end = at(ratio[key FS "crate"])
    first = end < at(1) ? end : at(1)
    rectangle(first, y, end < at(1) ? at(1) - end : end - at(1), bar - 2, color)
    rectangle(at(ratio[key FS "library"]) - 1, y - 0.5, 2, bar - 1, "#000000")
    text(left + panel, y + bar - 2.5, 9, "end", sprintf("%.2f", ratio[key FS "crate"]))
}
