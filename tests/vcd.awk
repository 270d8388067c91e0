# Reads a waveform back by its times alone: the events and their answers, "EVENT ANSWER" on a line each. It knows the
# widths of the data sheets and nothing of the command. A width that no data sheet allows is an error, and the exit
# status 1.
#   reset 480 us low or more; presence: 15 to 60 us high, then 60 to 240 us low
#   slot: up to 15 us low a one; 60 to 120 us a zero of the master; between them a zero of a device
#   program pulse: 480 us or more on the signal "pulse"
# and where the signal "overdrive" is high
#   reset 48 to 80 us low; presence: 2 to 6 us high, then 8 to 24 us low
#   slot: up to 2 us low a one; 6 to 16 us a zero of the master; between them a zero of a device
# The first event comes 1 us after the start, "mark" changes with each number of "step", and there is nothing in the
# dump that sigrok warns of.

function wrong(what) {
    print "vcd.awk: at " now " us: " what | "cat >&2"
    failed = 1
    exit 1
}

# The widths of a speed, each from a least to a most: of the rest after a reset, presence, slots.
function widths(fast) {
    reset_least = fast ? 48 : 480
    high_least = fast ? 2 : 15; high_most = fast ? 6 : 60
    low_least = fast ? 8 : 60; low_most = fast ? 24 : 240
    one_most = fast ? 2 : 15
    zero_least = fast ? 6 : 60; zero_most = fast ? 16 : 120
}

# A reset whose presence did not come is answered 1.
function close_reset() {
    if (reset_seen) print reset_seen " 1"
    reset_seen = 0
}

function presence(width) {
    if (fell - rose < high_least || fell - rose > high_most) wrong("presence " (fell - rose) " us after a reset")
    if (width < low_least || width > low_most) wrong("presence of " width " us")
    print reset_seen " 0"
    reset_seen = 0
    quiet_until = rose + reset_least
}

function slot(width) {
    if (width >= 1 && width <= one_most) print (fast ? "5 1" : "1 1")
    else if (width > one_most && width < zero_least) print (fast ? "5 0" : "1 0")
    else if (width >= zero_least && width <= zero_most) print (fast ? "4 0" : "0 0")
    else wrong("low for " width " us")
    quiet_until = fell + zero_least + 1
}

# The line went low at fell and high now.
function low(width) {
    if (reset_seen && fell - rose < reset_least) { presence(width); return }
    close_reset()
    widths(fast)
    if (fell < quiet_until) wrong("the line falls " (quiet_until - fell) " us too early")
    if (width < reset_least) { slot(width); return }
    if (fast && width > 80) wrong("a reset of " width " us at overdrive")
    rose = now
    reset_seen = fast ? 6 : 2
}

$1 == "$timescale" { if ($2 != "1" || $3 != "us") { now = 0; wrong("timescale " $2 $3) } }
$1 == "$var" {
    name[$4] = $5
    if ($2 != "wire" && $2 != "real") { now = 0; wrong("a signal that sigrok does not know: " $2) }
}
/^[^01#$r]/ { wrong("a value that sigrok does not know: " $0) }
/^\$/ && body && $1 != "$dumpvars" && $1 != "$end" { wrong("a word that sigrok does not know: " $0) }
$1 == "$enddefinitions" { body = 1 }
/^r/ {
    if (name[$2] != "step") wrong("a number of " name[$2])
    if (marks != numbers) wrong("a step without a mark")
    numbers++
}
/^#/ { now = substr($0, 2) + 0; if (now < last) wrong("time goes back"); last = now }
/^[01]/ {
    signal = name[substr($0, 2)]
    level = substr($0, 1, 1)
    if (now > 0 && !begun && now != 1) wrong("the first event comes late")
    if (now > 0) begun = 1
    if (signal == "overdrive") fast = level == 1
    if (signal == "mark" && level != mark) { marks += mark != ""; mark = level }
    if (signal == "line" && level != line) {
        if (level == 0) fell = now
        else if (line == "0") low(now - fell)
        line = level
    }
    if (signal == "pulse" && level != pulse) {
        if (level == 1) { close_reset(); pulsed = now }
        else if (pulse == "1") {
            if (now - pulsed < 480) wrong("pulse of " (now - pulsed) " us")
            if (line != "1") wrong("a pulse while the line is low")
            print "3 1"
            quiet_until = now + 5
        }
        pulse = level
    }
}
END {
    if (failed) exit 1
    close_reset()
    if (line != "1") { print "vcd.awk: the line ends low" | "cat >&2"; exit 1 }
    if (numbers < 2) { print "vcd.awk: there is no step" | "cat >&2"; exit 1 }
}
