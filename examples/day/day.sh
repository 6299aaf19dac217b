#!/bin/sh
# A day's orders, from a spreadsheet to an instance, and its plan back to sheets to print.
#
#     day.sh instance SETTINGS ORDERS             prints the Li-Lim instance of the orders
#     day.sh sheets SETTINGS ORDERS TIMETABLE     prints a sheet of text for each van, for `lp -o landscape`
#     day.sh page SETTINGS ORDERS TIMETABLE MAP   prints an HTML file with the map and a table for each van
#     day.sh add SETTINGS ORDERS [TIME]           prints the store command that adds the last order
#     day.sh cancel SETTINGS ORDERS ORDER [TIMETABLE TIME]
#                                                 prints the store commands that cancel the order with this name
#     day.sh out SETTINGS ORDERS VAN TIMETABLE TIME
#                                                 prints the store commands that cancel what this van has not delivered
#
# TIMETABLE is the timetable of a plan, made with `tabs`. MAP is the picture of the same plan, made with `draw`.
# TIME is the time of the day, for example 9:30.
#
# With TIME, `add` begins with `freeze`, which keeps what has begun by then, and refuses a pickup that may begin so
# early that a van could not reach it in time. With TIMETABLE and TIME, `cancel` removes the pin of the van before
# it withdraws the order, and freezes again. `out` does the same for each order that the van has not delivered by
# TIME. On standard error it prints the row of 0 boxes that keeps the van busy, as the last one of ORDERS.
#
# The page loads nothing from elsewhere, and each text of the tables is escaped in it. Of MAP only the map is copied,
# and it is refused if it has anything but shapes and texts.
#
# SETTINGS and ORDERS are tables as a spreadsheet exports them (CSV): a header; fields separated by commas or,
# if the header has them, by semicolons; quotes around a field that contains a separator, a quote or a line
# break; lines that end with CR LF, LF or CR. Columns may be in any order, and additional ones are not read. The
# path - is standard input. settings.csv and orders.csv in examples/day show all columns.
#
# The order on row i is pickup 2 i - 1 and delivery 2 i of the instance. A time is written as 9:30. An empty
# time is the begin or end of the day.
#
# The unit. In an instance a distance is also the travel time, so both have one unit: the second, of driving.
# Times count from midnight. A place is given by its metres east and north of the depot in the equirectangular
# projection, in which a degree of longitude is everywhere as long as at the depot's latitude. Roads are
# `detour` times as long as straight lines, and a van drives `km/h` on them, so a metre is 3.6 detour / (km/h)
# seconds. Coordinates are rounded to the nearest second, and so is each leg between them. This changes a leg by
# at most the root of 2 plus a half, which is less than 2 seconds.
#
# Faults are reported on standard error, all faults of a table together, for example `orders BadTime 7: ..`
# where 7 is the line; then nothing is printed. Status: 0 done; 1 orders are in no van, and the end of the sheets
# or of the page lists them; 2 a table, a timetable or a map is refused; 3 a file can't be read; 64 a usage error.
set -u

usage() {
    echo 'usage: day.sh instance SETTINGS ORDERS' >&2
    echo '       day.sh sheets SETTINGS ORDERS TIMETABLE' >&2
    echo '       day.sh page SETTINGS ORDERS TIMETABLE MAP' >&2
    echo '       day.sh add SETTINGS ORDERS [TIME]' >&2
    echo '       day.sh cancel SETTINGS ORDERS ORDER [TIMETABLE TIME]' >&2
    echo '       day.sh out SETTINGS ORDERS VAN TIMETABLE TIME' >&2
    exit 64
}

for word in "$@"; do
    [ -n "$word" ] || usage
done
TIMETABLE='' MAP='' ORDER='' VAN='' TIME=''
case "${1-} $#" in
    'instance 3' | 'add 3') ;;
    'sheets 4') TIMETABLE=$4 ;;
    'page 5') TIMETABLE=$4 MAP=$5 ;;
    'add 4') TIME=$4 ;;
    'cancel 4') ORDER=$4 ;;
    'cancel 6') ORDER=$4 TIMETABLE=$5 TIME=$6 ;;
    'out 6') VAN=$4 TIMETABLE=$5 TIME=$6 ;;
    *) usage ;;
esac
TASK=$1 SETTINGS=$2 ORDERS=$3
for path in "$SETTINGS" "$ORDERS" "${TIMETABLE:--}" "${MAP:--}"; do
    [ "$path" = - ] || { [ -r "$path" ] && [ ! -d "$path" ]; } || {
        echo "cannot read $path" >&2
        exit 3
    }
done

# Letters are bytes and a number has a point, whatever the system's language. Paths are passed in the
# environment, so that awk takes them unchanged.
LC_ALL=C
export LC_ALL TASK SETTINGS ORDERS TIMETABLE MAP ORDER VAN TIME
exec awk '
BEGIN {
    RADIANS = atan2(0, -1) / 180
    EARTH = 6371008.8       # its mean radius in metres
    FARTHEST = 100000       # metres from the depot; farther away, the projection is no map of a town
    DAY = 86400
    MOST_ORDERS = 20000     # an instance has at most 40,000 stops
    MOST_LINES = 20         # lines of one row after its first; a quote that stays open longer was forgotten
    HEAD = "^<svg xmlns=\047http://www[.]w3[.]org/2000/svg\047 font-family=\047sans-serif\047 font-size=\04714\047 "
    TITLE = "^<text( class=\047bad\047)? x=\04720\047 y=\04736\047"        # of a picture: the cost
    BARS = "^<text x=\047320\047 y=\0471086\047"                        # the key to its bars
    REST = "In no van, with the reasons below each order:"
    NO_REASON = "not in this plan: withdrawn, or not added to it yet"
    faults = 0
    used = 0                # vans of the timetable
    left = 0                # orders that the timetable leaves out

    has_time = ENVIRON["TIME"] != ""
    now = has_time ? seconds_of(ENVIRON["TIME"]) : 0
    if (now < 0 || now > DAY) {
        print "day.sh: " quoted(ENVIRON["TIME"]) " is not a time, for example 9:30" | "cat 1>&2"
        finish(64)
    }
    read_settings(ENVIRON["SETTINGS"])
    if (!faults)
        read_orders(ENVIRON["ORDERS"])
    if (!faults && ENVIRON["TIMETABLE"] != "")
        read_timetable(ENVIRON["TIMETABLE"])
    if (!faults && ENVIRON["MAP"] != "")
        read_map(ENVIRON["MAP"])
    if (!faults)
        status = run_task(ENVIRON["TASK"])
    finish(faults ? 2 : status)
}

# Returns the status. Nothing is printed if the task finds a fault.
function run_task(task) {
    if (task == "sheets" || task == "page")
        return task == "sheets" ? print_sheets() : print_page()
    if (task == "instance")
        print_instance()
    else if (task == "add")
        print_addition()
    else if (task == "cancel")
        print_cancellation(clean(ENVIRON["ORDER"]))
    else
        print_outage(ENVIRON["VAN"])
    return 0
}

function refuse(table, name, line, words) {
    print table " " name " " line ": " words | "cat 1>&2"
    faults += 1
}

function refuse_quote(table, line) {
    refuse(table, "BadQuote", line, "a quote is not closed, or is not around the whole field")
}

function finish(status) {
    close("cat 1>&2")
    exit status
}

# Each file is read once, to its end, and not closed: mawk 1.3.4 crashes if standard input is closed.
function source(path) {
    return path == "-" ? "/dev/stdin" : path
}

function quoted(text) {
    return "\"" text "\""
}

# Reads a table, and returns its number of rows, without the header and without rows of empty fields.
# cell[table, row, column] is a field, line_of[table, row] the line on which the row begins, end_of[table] the
# line after the last one.
function read_table(table, path, columns,    name, line, first, rows, mistake, is_refused) {
    name = path == "-" ? "standard input" : quoted(path)
    path = source(path)
    line = next_record(path, 0)
    mistake = mistaken(record)
    if (line == 0)
        refuse(table, "Missing", 1, "there is no header")
    else if (mistake != "")
        refuse(table, "NoTable", 1, name " " mistake "; save it as CSV, in UTF-8")
    else
        read_header(table, name, columns)
    if (faults)
        return 0
    rows = 0
    for (first = line + 1; (line = next_record(path, line)) > 0; first = line + 1) {
        if (!is_refused && !is_utf_8(record)) {
            refuse(table, "NoTable", first, name " is not in UTF-8; save it as CSV, in UTF-8")
            is_refused = 1
        }
        if (record !~ /^[,; \t]*$/)
            rows += read_row(table, rows + 1, first)
    }
    end_of[table] = first
    return rows
}

# Returns what was saved instead of a table, by the first line, or "" if the line may be a header. An awk whose
# texts end at a byte of 0 finds no comma in UTF-16.
function mistaken(text) {
    if (text ~ /^(PK\003\004|\320\317\021\340)/)
        return "is a file of a spreadsheet program"
    if (text ~ /^(\377\376|\376\377)/ || text ~ /[^\001-\377]/)
        return "is in UTF-16"
    if (!is_utf_8(text))
        return "is not in UTF-8"
    if (text !~ /[,;]/)
        return "has neither a comma nor a semicolon in its first line, the header"
    return ""
}

# Returns whether each letter is valid UTF-8, by its first byte and the number of bytes that follow. The names
# of places are printed as they are.
function is_utf_8(text) {
    gsub(/[\302-\337][\200-\277]|[\340-\357][\200-\277][\200-\277]|[\360-\364][\200-\277][\200-\277][\200-\277]/, "", text)
    return text !~ /[\200-\377]/
}

# Reads the next line into `record`, with the lines over which its quotes stay open. Returns the number of the
# last line that was read, 0 at the end.
function next_record(path, line,    first, is_open) {
    record = ""
    if (!next_line(path, line))
        return 0
    record = text_of_line
    line += 1
    is_open = quotes(record) % 2
    for (first = line; is_open && line - first < MOST_LINES && next_line(path, line); line += 1) {
        is_open = (is_open + quotes(text_of_line)) % 2
        record = record " " text_of_line
    }
    return line
}

# Reads the next line into `text_of_line`, after `line` others. Returns 0 at the end. If CR occurs within the
# first line, each CR ends a line.
function next_line(path, line) {
    if (line == 0)
        piece = pieces = ends_by_cr = 0
    if (piece >= pieces) {
        if ((getline text_of_line < path) < 1)
            return 0
        sub(/\r$/, "", text_of_line)
        if (line == 0)
            ends_by_cr = text_of_line ~ /\r[^\r]/
        if (!ends_by_cr)
            return 1
        pieces = split(text_of_line, piece_at, "\r")
        piece = 0
    }
    piece += 1
    text_of_line = piece_at[piece]
    return 1
}

function quotes(text) {
    return gsub(/"/, "", text)
}

# Finds the positions of the columns. Those between bars are required. If none of them is found, one fault says
# so.
function read_header(table, name, columns,    i, count, wanted, column, found) {
    sub(/^\357\273\277/, "", record)        # a byte order mark
    separator[table] = record ~ /;/ ? ";" : ","
    count = width_of[table] = cut(record, separator[table])
    if (count == 0)
        refuse_quote(table, 1)
    for (i = 1; i <= count; i += 1) {
        title[table, i] = tolower(field[i])
        if (field[i] != "" && (table, tolower(field[i])) in has_column)
            refuse(table, "Repeated", 1, "two columns are " quoted(field[i]))
        has_column[table, tolower(field[i])]
    }
    wanted = split(columns, column, "|")
    for (i = 1; i <= wanted; i += 1)
        found += ((table, column[i]) in has_column)
    if (count > 0 && !found)
        refuse(table, "NoTable", 1, name " has none of the columns in its first line, the header")
    for (i = 1; i <= wanted && found; i += 1)
        if (!((table, column[i]) in has_column))
            refuse(table, "NoColumn", 1, "there is no column " quoted(column[i]))
}

# Keeps the fields of a row and returns 1, or returns 0 if it is refused.
function read_row(table, row, line,    i, count) {
    count = cut(record, separator[table])
    if (count == 0)
        refuse_quote(table, line)
    else if (count != width_of[table])
        refuse(table, "FieldCount", line, count " fields, where the header has " width_of[table])
    if (count != width_of[table])
        return 0
    line_of[table, row] = line
    for (i = 1; i <= count; i += 1)
        cell[table, row, title[table, i]] = field[i]
    return 1
}

# Cuts a record into `field`, and returns the number of fields, or 0 if a quote is wrong. A quote within quotes
# is written twice.
function cut(text, separator,    count, end, value) {
    count = 0
    text = text separator       # so that a separator follows each field
    while (text != "") {
        if (match(text, /^"([^"]|"")*"/)) {
            end = RLENGTH
            value = substr(text, 2, end - 2)
            gsub(/""/, "\"", value)
        } else {
            end = index(text, separator) - 1
            value = substr(text, 1, end)
            if (value ~ /"/)
                return 0
        }
        if (substr(text, end + 1, 1) != separator)
            return 0
        count += 1
        field[count] = clean(value)
        text = substr(text, end + 2)
    }
    return count
}

# Returns the text without blanks around it. Each run of blanks, tabs and other control characters within it
# becomes one blank.
function clean(text) {
    gsub(/[ [:cntrl:]]+/, " ", text)
    sub(/^ /, "", text)
    sub(/ $/, "", text)
    return text
}

# The requirements on a field of a row.

function needed(table, row, column) {
    if (cell[table, row, column] == "")
        refuse(table, "Empty", line_of[table, row], column " is empty")
    return cell[table, row, column]
}

function decimal(table, row, column, least, most,    text) {
    text = cell[table, row, column]
    if (separator[table] == ";")
        sub(/,/, ".", text)
    if (text !~ /^[-+]?([0-9]+\.?[0-9]*|\.[0-9]+)$/) {
        refuse(table, "BadNumber", line_of[table, row], column ": " quoted(text) " is not a number")
        return least
    }
    if (text + 0 < least || text + 0 > most)
        refuse(table, "Range", line_of[table, row], column ": " text " is not from " least " to " most)
    return text + 0
}

function whole(table, row, column, least, most,    before, value) {
    before = faults
    value = decimal(table, row, column, least, most)
    if (faults == before && value != int(value))
        refuse(table, "BadNumber", line_of[table, row], column ": " cell[table, row, column] " is not whole")
    return value
}

# Returns a time in seconds since midnight, or `given` for an empty one.
function clock(table, row, column, given,    text, time) {
    text = cell[table, row, column]
    if (text == "")
        return given
    time = seconds_of(text)
    if (time < 0) {
        refuse(table, "BadTime", line_of[table, row], column ": " quoted(text) " is not a time, for example 9:30")
        return given
    }
    if (time > DAY)
        refuse(table, "BadTime", line_of[table, row], column ": " text " is after 24:00")
    return time
}

# Returns the seconds since midnight of a time as 9:30 or 9:30:15, or -1 if the text is not one.
function seconds_of(text,    part) {
    if (text !~ /^[0-9][0-9]?:[0-5][0-9](:[0-5][0-9])?$/)
        return -1
    split(text, part, ":")
    return 3600 * part[1] + 60 * part[2] + part[3]
}

# Reads the settings. Each one is kept as if its name were the column.
function read_settings(path,    rows, row, name, i, count, names, line) {
    count = split("depot|depot lat|depot lon|opens|closes|vans|boxes|km/h|detour", names, "|")
    for (i = 1; i <= count; i += 1)
        is_setting[names[i]]
    rows = read_table("settings", path, "setting|value")
    for (row = 1; row <= rows; row += 1) {
        line = line_of["settings", row]
        name = tolower(cell["settings", row, "setting"])
        if (!(name in is_setting))
            refuse("settings", "Unknown", line, "there is no setting " quoted(name))
        else if (name in row_of)
            refuse("settings", "Repeated", line, name " is already on line " line_of["settings", row_of[name]])
        row_of[name] = row
        cell["settings", row, name] = cell["settings", row, "value"]
    }
    for (i = 1; i <= count && !faults; i += 1)
        if (!(names[i] in row_of))
            refuse("settings", "Missing", end_of["settings"], "no row sets " quoted(names[i]))
    if (!faults)
        keep_settings()
}

# With the limits of speed and detour, no stop is more than 360,000 seconds from the depot. An instance allows
# 1,000,000.
function keep_settings() {
    place[0] = needed("settings", row_of["depot"], "depot")
    latitude = decimal("settings", row_of["depot lat"], "depot lat", -89, 89)
    longitude = decimal("settings", row_of["depot lon"], "depot lon", -180, 180)
    earliest[0] = clock("settings", row_of["opens"], "opens", 0)
    latest[0] = clock("settings", row_of["closes"], "closes", DAY)
    if (earliest[0] > latest[0])
        refuse("settings", "EmptyWindow", line_of["settings", row_of["closes"]], "it closes before it opens")
    vans = whole("settings", row_of["vans"], "vans", 1, 40000)
    capacity = whole("settings", row_of["boxes"], "boxes", 0, 1000000)
    speed = decimal("settings", row_of["km/h"], "km/h", 5, 200)
    detour = decimal("settings", row_of["detour"], "detour", 1, 5)
    x[0] = y[0] = service[0] = 0
    keep_degrees(0, latitude, longitude)
}

# Reads the orders: order[row] is the name, boxes[row] the demand. The pickup is stop 2 row - 1, the delivery 2
# row. A stop has x, y, earliest and latest start and service, all in seconds, and its place and phone.
function read_orders(path,    row) {
    orders = read_table("orders", path, \
        "order|boxes|pickup|pickup phone|pickup lat|pickup lon|pickup from|pickup to|pickup minutes" \
        "|delivery|delivery phone|delivery lat|delivery lon|delivery from|delivery to|delivery minutes")
    if (!faults && orders == 0)
        refuse("orders", "Missing", end_of["orders"], "there is no order")
    if (orders > MOST_ORDERS)
        refuse("orders", "TooManyOrders", line_of["orders", MOST_ORDERS + 1], "an instance has " MOST_ORDERS " at most")
    for (row = 1; row <= orders; row += 1) {
        keep_name(row, needed("orders", row, "order"))
        boxes[row] = whole("orders", row, "boxes", 0, capacity)
        keep_stop(row, 2 * row - 1, "pickup")
        keep_stop(row, 2 * row, "delivery")
    }
}

function keep_name(row, name) {
    order[row] = name
    if (name != "" && name in row_named)
        refuse("orders", "Repeated", line_of["orders", row], "order " name " is already on line " line_of["orders", row_named[name]])
    row_named[name] = row
}

function keep_stop(row, stop, side,    before) {
    place[stop] = needed("orders", row, side)
    phone[stop] = cell["orders", row, side " phone"]
    keep_spot(row, stop, side)
    before = faults
    earliest[stop] = clock("orders", row, side " from", earliest[0])
    latest[stop] = clock("orders", row, side " to", latest[0])
    if (faults == before && earliest[stop] > latest[stop])
        refuse("orders", "EmptyWindow", line_of["orders", row], side ": from " clock_time(earliest[stop]) " to " clock_time(latest[stop]))
    service[stop] = nearest(60 * decimal("orders", row, side " minutes", 0, 1440))
}

function keep_spot(row, stop, side,    before, east, north, far) {
    before = faults
    north = decimal("orders", row, side " lat", -90, 90)
    east = decimal("orders", row, side " lon", -180, 180)
    if (faults > before)
        return
    keep_degrees(stop, north, east)
    north = (north - latitude) * RADIANS * EARTH
    east = (east - longitude) * RADIANS * EARTH * cos(latitude * RADIANS)
    far = sqrt(east ^ 2 + north ^ 2)
    if (far > FARTHEST)
        refuse("orders", "TooFar", line_of["orders", row], side ": " int(far / 1000) " km from the depot; are lat and lon exchanged?")
    x[stop] = nearest(east * 3.6 * detour / speed)
    y[stop] = nearest(north * 3.6 * detour / speed)
}

# Keeps a place in degrees, for links: a millionth of a degree is at most a ninth of a metre.
function keep_degrees(stop, north, east) {
    degrees[stop] = sprintf("%.6f,%.6f", north, east)
}

function nearest(value) {
    return value < 0 ? -int(0.5 - value) : int(value + 0.5)
}

# Returns a time of the day, without its seconds.
function clock_time(seconds) {
    return sprintf("%d:%02d", int(seconds / 3600), int(seconds % 3600 / 60))
}

function print_instance(    row, pickup) {
    printf "%d %d 1\n", vans, capacity
    printf "0 0 0 0 %d %d 0 0 0\n", earliest[0], latest[0]
    for (row = 1; row <= orders; row += 1) {
        pickup = 2 * row - 1
        print_task(pickup, boxes[row], 0, pickup + 1)
        print_task(pickup + 1, -boxes[row], pickup, 0)
    }
}

function print_task(stop, demand, pickup, delivery) {
    printf "%d %d %d %d %d %d %d %d %d\n", stop, x[stop], y[stop], demand, earliest[stop], latest[stop], service[stop], pickup, delivery
}

# Prints the command that adds the last order, after `freeze` if the day has begun. A van may then be at any place
# of the table, or between two of them, so its drive to the pickup takes at most as long as from the farthest one.
function print_addition(    pickup, drive, stop) {
    pickup = 2 * orders - 1
    for (stop = 0; has_time && stop < pickup; stop += 1)
        drive = greater(drive, travel_time(stop, pickup))
    if (has_time && earliest[pickup] < now + drive) {
        refuse("orders", "TooEarly", line_of["orders", orders], "pickup from: " clock_time(earliest[pickup]) " is too early; from " \
            clock_time(60 * minutes(now + drive)) " on each van can be there, if it is sent at " clock_time(now))
        return
    }
    if (has_time)
        print "freeze " now
    printf "add %d", boxes[orders]
    for (stop = pickup; stop <= pickup + 1; stop += 1)
        printf " %d %d %d %d %d", x[stop], y[stop], earliest[stop], latest[stop], service[stop]
    print ""
    print "day.sh: order " order[orders] " becomes request " pickup | "cat 1>&2"
}

# Prints the commands that cancel an order. If the day has begun, the stops of its van may be pinned: the pin is
# removed before, and what has begun is pinned again after.
function print_cancellation(name,    pickup) {
    if (!(name in row_named)) {
        refuse("orders", "NoSuchOrder", end_of["orders"], "there is no order " quoted(name))
        return
    }
    pickup = 2 * row_named[name] - 1
    if (has_time && !is_served[pickup] && !is_left[pickup]) {
        refuse("timetable", "NoSuchOrder", end_of["timetable"], "order " name " is " NO_REASON)
        return
    }
    if (is_served[pickup])
        printf "unpin %d\n", van[van_of[pickup]]
    print "withdraw " pickup
    if (has_time)
        print "freeze " now
    if (is_served[pickup] && begin_of[pickup] <= now)
        report_begun(name, begin_of[pickup + 1] <= now ? pickup + 1 : pickup)
}

# Reports that an order that is cancelled has begun with this stop.
function report_begun(name, stop) {
    printf "day.sh: by this plan, van %d has begun to %s order %s at %s%s\n", van[van_of[stop - !(stop % 2)]], \
        (stop % 2 ? "pick up" : "deliver"), name, clock_time(begin_of[stop]), (stop % 2 ? ": its boxes are on board" : "") | "cat 1>&2"
}

# Prints the commands that cancel each order that a van has not delivered by now, and reports these orders. Then
# reports the row of 0 boxes that keeps the van at the place of its last delivery.
function print_outage(name,    n, k, stop, last) {
    for (n = used; n > 0 && van[n] != name; n -= 1)
        ;
    for (k = 1; n > 0 && k < stops[n]; k += 1)
        if (is_delivered(stop_at[n, k]))
            last = k
    if (!last) {
        refuse("timetable", "NothingDone", end_of["timetable"], "van " name (n ? " has delivered nothing by " clock_time(now) \
            "; give its sheet to an idle van" : " has no sheet in this plan"))
        return
    }
    if (now > latest[0]) {
        refuse("timetable", "DayOver", end_of["timetable"], "the depot closes at " clock_time(latest[0]) ", so no van is planned at " clock_time(now))
        return
    }
    print "unpin " van[n]
    for (k = 1; k < stops[n]; k += 1) {
        stop = stop_at[n, k]
        if (stop % 2 == 0 || is_delivered(stop))
            continue
        print "withdraw " stop
        printf "day.sh: order %s, %s\n", order_of(stop), (begin_of[stop] <= now ? "on board" : "not picked up") | "cat 1>&2"
    }
    print "freeze " now
    print "day.sh: write as the last row of the table:" | "cat 1>&2"
    print busy_row("van " van[n] " out", stop_at[n, last], greater(now, begin[n, last] + service[stop_at[n, last]])) | "cat 1>&2"
}

# Returns whether the order of a stop is delivered by now, by the plan.
function is_delivered(stop) {
    return begin_of[stop + stop % 2] <= now
}

# Returns a row of the table, with its columns and its separator: 0 boxes from and to the place of a stop, where the
# van is free at this time. The pickup begins within half an hour of it, and lasts until the van must return.
function busy_row(name, stop, free,    i, side, text, value) {
    split("pickup|delivery", side, "|")
    value["order"] = name
    value["boxes"] = value["delivery minutes"] = 0
    for (i = 1; i <= 2; i += 1) {
        value[side[i]] = place[stop]
        value[side[i] " phone"] = phone[stop]
        value[side[i] " lat"] = cell["orders", row_at(stop), side[2 - stop % 2] " lat"]
        value[side[i] " lon"] = cell["orders", row_at(stop), side[2 - stop % 2] " lon"]
    }
    value["pickup from"] = clock_time(now)
    value["pickup to"] = clock_time(free + 1800 < latest[0] ? free + 1800 : latest[0])
    value["pickup minutes"] = greater(int((latest[0] - free - 1800 - travel_time(stop, 0)) / 60), 0)
    for (i = 1; i <= width_of["orders"]; i += 1)
        text = text (i > 1 ? separator["orders"] : "") in_table(value[title["orders", i]])
    return text
}

# Returns a field as it is written in a table.
function in_table(text) {
    if (text !~ /[",;]/)
        return text
    gsub(/"/, "\"\"", text)
    return quoted(text)
}

# Reads the timetable: van[n] is the number of the n-th van that is used, and stop_at[n, k] its k-th stop, 0
# after the last one. By the schedule of the program the van is at a stop at `arrival`, and begins service at
# `begin`. A timetable of other orders is refused.
function read_timetable(path,    line, part, n) {
    path = source(path)
    for (line = 1; !faults && (getline record < path) > 0; line += 1) {
        sub(/\r$/, "", record)
        split(record, part, "\t")
        if (line == 1)
            read_verdict(record)
        else if (part[1] == "vehicle")
            begin_van(line, part[2])
        else if (part[1] == "stop")
            read_place(line, part)
        else if (part[1] == "why")
            keep_reason(part[2], with_orders(with_units(part[3])))
        else if (part[1] == "unplanned")
            keep_left(line, part[2])
        else
            refuse("timetable", "BadLine", line, "it is not from a timetable that was made with `tabs`")
    }
    if (!faults && (line == 1 || used != vans_expected || left != left_expected || is_open))
        refuse("timetable", "Truncated", line, "its end is missing")
    end_of["timetable"] = line
    for (n = 1; n <= used; n += 1)
        delay_departure(n)
}

# Lets a van leave the depot so late that it need not wait at its first stop.
function delay_departure(n) {
    arrival[n, 1] = begin[n, 1]
    departure[n] = begin[n, 1] - travel_time(0, stop_at[n, 1])
}

function keep_left(line, pickup) {
    if (pickup !~ /^[0-9]+$/ || pickup % 2 == 0 || pickup > 2 * orders || is_served[pickup] || is_left[pickup])
        refuse("timetable", "OtherOrders", line, "stop " pickup " is not in these " orders " orders, or occurs twice")
    is_left[pickup] = 1
    left += 1
}

# Keeps a line of `why`, in the words of the tables.
function keep_reason(pickup, text) {
    sub(/: behind stop/, ": after stop", text)
    sub(/^alone: a vehicle can serve it$/, "a van of its own can serve it", text)
    sub(/^alone: /, "with a van of its own: ", text)
    sub(/^vehicle /, "van ", text)
    sub(/a vehicle /, "a van ", text)
    sub(/ vehicles are used$/, " vans are used", text)
    reason[pickup] = reason[pickup] "    " text "\n"
}

# Returns a line of `why`, with the order and its side after each stop that it names.
function with_orders(text,    named, stop) {
    named = ""
    while (match(text, /stop [0-9]+/)) {
        stop = substr(text, RSTART + 5, RLENGTH - 5)
        named = named substr(text, 1, RSTART + RLENGTH - 1) " (order " order_of(stop) ", " (stop % 2 ? "pickup" : "delivery") ")"
        text = substr(text, RSTART + RLENGTH)
    }
    return named text
}

# Returns a line of `why` with times of the day, and with units for its other numbers. A time that is too late
# is rounded up, since its limit may be in the same minute.
function with_units(text,    part) {
    if (match(text, / at [0-9]+, latest [0-9]+$/)) {
        split(substr(text, RSTART), part, /[ ,]+/)
        return substr(text, 1, RSTART) "at " clock_time(60 * minutes(part[3])) ", latest " clock_time(part[5])
    }
    if (match(text, / [0-9]+ late$/))
        return substr(text, 1, RSTART) counted(minutes(substr(text, RSTART + 1) + 0), "minute", "minutes") " late"
    if (match(text, / [0-9]+ too much$/))
        return substr(text, 1, RSTART) counted(substr(text, RSTART + 1) + 0, "box", "boxes") " too many"
    return text
}

# Returns whole minutes, including the last one that has begun.
function minutes(seconds) {
    return int((seconds + 59) / 60)
}

# Reads the first line: how many orders are left out, how many vehicles the plan uses and how far they drive, or
# why there is no timetable.
function read_verdict(text,    part) {
    if (text ~ /^(pass|partial) [0-9]+ [0-9]+ [0-9]+$/) {
        split(text, part, " ")
        left_expected = part[2]
        vans_expected = part[3]
        distance_expected = part[4]
    } else if (text ~ /^(broken|instance|solution|store|no|cannot read|out of memory)( |$)/)
        refuse("timetable", "NoPlan", 1, text)
    else
        refuse("timetable", "BadLine", 1, "it is not from a timetable that was made with `tabs`")
}

function begin_van(line, number) {
    if (is_open)
        refuse("timetable", "BadLine", line, "the van before does not return")
    used += 1
    van[used] = number
    is_open = 1
    load = to_deliver = 0
    time = earliest[0]
    last_stop = 0
}

# Reads a stop of the current van. Everything must agree with the orders.
function read_place(line, part,    stop, came, start) {
    stop = part[4]
    if (!is_open || part[2] != van[used] || stop !~ /^[0-9]+$/) {
        refuse("timetable", "BadLine", line, "a stop before the line of its van")
        return
    }
    if (stop > 2 * orders || is_served[stop]) {
        refuse("timetable", "OtherOrders", line, "stop " stop " is not in these " orders " orders, or occurs twice")
        return
    }
    stop += 0
    came = time + travel_time(last_stop, stop)
    start = came < earliest[stop] ? earliest[stop] : came
    if (part[8] != came || part[9] != start || start > latest[stop] || !is_carried(stop))
        refuse("timetable", "OtherOrders", line, "stop " stop " differs from these orders and settings")
    keep_place(stop, came, start)
}

# Returns whether the load of a van allows this stop: a delivery comes after its pickup, the load never exceeds
# the capacity, and the van returns empty.
function is_carried(stop) {
    if (stop == 0)
        return to_deliver == 0
    is_served[stop] = 1
    if (stop % 2 == 1) {
        van_of[stop] = used
        to_deliver += 1
        load += boxes[row_at(stop)]
    } else {
        if (van_of[stop - 1] != used)
            return 0
        to_deliver -= 1
        load -= boxes[row_at(stop)]
    }
    greatest_load[used] = greater(greatest_load[used], load)
    return load <= capacity
}

function keep_place(stop, came, start) {
    stops[used] += 1
    stop_at[used, stops[used]] = stop
    arrival[used, stops[used]] = came
    begin[used, stops[used]] = begin_of[stop] = start
    driven[used] += travel_time(last_stop, stop)
    time = start + service[stop]
    last_stop = stop
    is_open = stop != 0
}

# Returns the travel time of a leg in seconds, as the program computes it.
function travel_time(from, to) {
    return int(sqrt((x[from] - x[to]) ^ 2 + (y[from] - y[to]) ^ 2) + 0.5)
}

# Prints the sheets, a page for each van, and returns the status.
function print_sheets(    n) {
    order_width = letters("order")
    phone_width = letters("phone")
    for (n = 1; n <= orders; n += 1) {
        order_width = greater(order_width, letters(order[n]))
        phone_width = greater(phone_width, greater(letters(phone[2 * n - 1]), letters(phone[2 * n])))
    }
    for (n = 1; n <= used; n += 1) {
        if (n > 1)
            printf "\f"
        print_sheet(n)
    }
    find_rest()
    print_rest()
    return status_of_rest()
}

# Returns what stands above the stops of a van.
function summary(n) {
    return sprintf("leaves %s, back %s, %d stops, %d km, up to %d of %d boxes", clock_time(departure[n]), clock_time(arrival[n, stops[n]]), \
        stops[n] - 1, nearest(driven[n] * speed / 3600), greatest_load[n], capacity)
}

function print_sheet(n,    k, stop) {
    printf "Van %d: %s\n\n", van[n], summary(n)
    print_row("arrive", "begin", "leave", "window", "order", "task", "phone", "place")
    print_row("", "", clock_time(departure[n]), "", "", "", "", place[0])
    for (k = 1; k < stops[n]; k += 1) {
        stop = stop_at[n, k]
        print_row(clock_time(arrival[n, k]), clock_time(begin[n, k]), clock_time(begin[n, k] + service[stop]), window(stop), order_of(stop), \
            task(stop), phone[stop], place[stop])
    }
    print_row(clock_time(arrival[n, k]), "", "", "", "", "", "", place[0])
}

function print_row(arrives, begins, leaves, open, name, what, number, where) {
    printf "%6s %6s %6s  %-11s  %s  %s  %s  %s\n", arrives, begins, leaves, open, padded(name, order_width), \
        padded(what, 8 + length(capacity)), padded(number, phone_width), where
}

function task(stop) {
    return (stop % 2 ? "pick up " : "deliver ") boxes[row_at(stop)]
}

function window(stop) {
    return clock_time(earliest[stop]) "-" clock_time(latest[stop])
}

function row_at(stop) {
    return int((stop + 1) / 2)
}

function order_of(stop) {
    return order[row_at(stop)]
}

# Finds the orders that are in no van: rest[1], .. are their rows. Those that the plan leaves out come first; those
# that it lacks, because they were withdrawn or not added yet, follow.
function find_rest(    row, lacks) {
    rests = 0
    for (lacks = 0; lacks < 2; lacks += 1)
        for (row = 1; row <= orders; row += 1)
            if (!is_served[2 * row] && !is_left[2 * row - 1] == lacks)
                rest[rests += 1] = row
}

# Prints the orders that are in no van, and why, on a page of their own.
function print_rest(    n, row) {
    if (rests)
        printf "%s%s\n", used ? "\f" : "", REST
    for (n = 1; n <= rests; n += 1) {
        row = rest[n]
        printf "\norder %s, %s, stops %d and %d\n", order[row], counted(boxes[row], "box", "boxes"), 2 * row - 1, 2 * row
        printf "  pick up %s  %s  %s\n", window(2 * row - 1), phone[2 * row - 1], place[2 * row - 1]
        printf "  deliver %s  %s  %s\n", window(2 * row), phone[2 * row], place[2 * row]
        printf "%s", (reason[2 * row - 1] != "" ? reason[2 * row - 1] : "    " NO_REASON "\n")
    }
}

# Returns the status, and reports how many orders are in no van, and how many of them the plan lacks.
function status_of_rest() {
    if (rests)
        print "day.sh: orders in no van: " rests (rests > left ? "; not in this plan: " rests - left : "") | "cat 1>&2"
    return rests ? 1 : 0
}

# Reads the picture of the plan and keeps the lines of its map: map_line[1], .. without what stands above and below
# the map. The picture must have the cost of the timetable, and a map of shapes and texts that loads nothing.
function read_map(path,    line, part) {
    path = source(path)
    part = "head"
    for (line = 1; !faults && (getline record < path) > 0; line += 1) {
        sub(/\r$/, "", record)
        if (part == "end")
            continue
        if (line == 1 ? !is_head(record) : !is_drawn(record))
            refuse("map", "NoPicture", line, "it is not from a picture that was made with `draw`")
        else if (part == "head" && record ~ TITLE) {
            expect_plan(line, record)
            part = "key"
        } else if (part == "key" && record ~ /^<svg /)
            part = "map"
        else if (part == "map" && record == "</svg>")
            part = "end"
        if (part == "map" || part == "end" || record !~ TITLE "|" BARS)
            map_line[map_lines += 1] = with_name(line, line == 1 ? cropped(record) : record)
    }
    if (!faults && part != "end")
        refuse("map", "Truncated", line, "its end is missing")
}

function is_head(text) {
    return text ~ HEAD "viewBox=\0470 0 1200 [0-9]+\047>$"
}

# Returns the head of a picture that shows the map and its key only, which are from 44 to 1076 down.
function cropped(text) {
    sub(/viewBox=[^>]*/, "viewBox=\0470 44 1200 1032\047", text)
    return text
}

# Returns whether a line of a picture has only shapes and texts, with references within the picture.
function is_drawn(text) {
    gsub(/<\/?(style|defs|marker|path|rect|circle|svg|g|use|text|tspan|polyline|title)[ >]/, "", text)
    gsub(/href=\047#|url\(#/, "", text)
    return text !~ /<|href|url|@|:\/\/|[^a-z-]on[a-z]* *=/
}

# Expects the cost of the timetable in the title of the picture.
function expect_plan(line, text,    wanted) {
    wanted = (left_expected > 0 ? "partial, " : "") "unplanned " left_expected ", vehicles " vans_expected ", distance " distance_expected
    gsub(/<[^>]*>/, "", text)
    if (text != wanted)
        refuse("map", "OtherPlan", line, quoted(text) ", but the timetable has " quoted(wanted))
}

# Returns a line of the map. The title of a mark, which is the number of its stop, becomes the order and the place.
function with_name(line, text,    stop) {
    if (!match(text, /<title>[0-9]+<\/title>/))
        return text
    stop = substr(text, RSTART + 7, RLENGTH - 15) + 0
    if (stop > 2 * orders)
        refuse("map", "OtherOrders", line, "stop " stop " is not in these " orders " orders")
    return substr(text, 1, RSTART + 6) escaped(stop == 0 ? place[0] : order_of(stop) ", " task(stop) ", " place[stop]) \
        substr(text, RSTART + RLENGTH - 8)
}

# Prints the page, and returns the status: the map, then a section for each van and one for the orders in no van.
function print_page(    n) {
    find_rest()
    print_head(used + (rests > 0))
    print "<section>"
    print "<h1>" escaped(place[0]) "</h1>"
    printf "<p>%s, %s</p>\n<ul>\n", counted(used, "van", "vans"), counted(orders, "order", "orders")
    for (n = 1; n <= used; n += 1)
        printf "<li><a href=\"#van-%d\">Van %d</a>: %s</li>\n", van[n], van[n], summary(n)
    if (rests)
        printf "<li><a href=\"#rest\">In no van: %s</a></li>\n", counted(rests, "order", "orders")
    print "</ul>"
    print_map()
    print "</section>"
    for (n = 1; n <= used; n += 1)
        print_section(n)
    if (rests)
        print_rest_section()
    print "</body>"
    print "</html>"
    return status_of_rest()
}

# Prints the head of the page. The policy forbids a browser to load or run anything. In print the map takes what
# this number of lines above it leaves of the first page.
function print_head(lines) {
    print "<!DOCTYPE html>"
    print "<html lang=\"en\" xmlns=\"http://www.w3.org/1999/xhtml\">"
    print "<head>"
    print "<meta charset=\"utf-8\"/>"
    print "<meta http-equiv=\"Content-Security-Policy\" content=\"default-src \047none\047; style-src \047unsafe-inline\047\"/>"
    print "<meta name=\"viewport\" content=\"width=device-width, initial-scale=1\"/>"
    print "<title>" escaped(place[0]) "</title>"
    print "<style>"
    print "body{margin:1em;font:16px/1.35 sans-serif;color:#000;background:#fff}"
    print "h1,h2{margin:.6em 0 .2em}h2{padding-left:.4em;border-left:.6em solid}p,ul{margin:.2em 0 .6em}"
    print "a{color:#03c}"
    print ".picture>svg{display:block;width:100%;max-width:1200px;height:auto}"
    print "table{width:100%;border-collapse:collapse}"
    print "th,td{padding:.15em .5em;border-bottom:1px solid #aaa;text-align:left;vertical-align:top}"
    print ".hour,.spot{text-align:right}.hour,.spot,.open,.task,.phone{white-space:nowrap}"
    print "@media screen and (max-width:50em){"
    print "thead{display:none}table,tbody{display:block}"
    print "tr{display:grid;grid-template-columns:1fr 1fr 1fr;column-gap:.5em;padding:.4em 0;border-bottom:1px solid #aaa}"
    print "td{padding:0 .3em 0 0;border:0}td:empty{display:none}"
    print ".hour,.spot{text-align:left}.place{grid-column:1/4;grid-row:1;font-weight:bold}.phone{grid-column:1/3}"
    print ".arrive::before{content:\"arrive \"}.begin::before{content:\"begin \"}.leave::before{content:\"leave \"}"
    print ".open::before{content:\"window \"}.name::before{content:\"order \"}.spot::before{content:\"map \"}"
    print "}"
    print "@page{size:A4 landscape;margin:10mm}"
    print "@media print{"
    print "body{margin:0;font-size:9pt}a{color:inherit;text-decoration:none}"
    print ".van{break-before:page}h2{margin-top:0}tr{break-inside:avoid}th,td{padding:.05em .5em}"
    printf ".picture>svg{height:%dmm;margin:0 auto}\n", greater(40, 153 - 4.5 * lines)
    print "}"
    print "</style>"
    print "</head>"
    print "<body>"
}

function print_map(    n) {
    print "<div class=\"picture\">"
    for (n = 1; n <= map_lines; n += 1)
        print map_line[n]
    print "</svg>"
    print "</div>"
    print "<p>The numbers on the map are in the last column of the tables below. A dashed line joins a pickup and its delivery.</p>"
}

# Prints the stops of a van, in the colour of its route on the map.
function print_section(n,    k, stop) {
    printf "<section class=\"van\" id=\"van-%d\">\n", van[n]
    printf "<h2 style=\"border-color:hsl(%d,75%%,%d%%)\">Van %d</h2>\n", 137 * van[n] % 360, 30 + van[n] % 7 * 4, van[n]
    printf "<p>%s</p>\n", summary(n)
    print "<table>"
    print "<thead><tr><th class=\"hour\">arrive</th><th class=\"hour\">begin</th><th class=\"hour\">leave</th><th>window</th><th>order</th>"
    print "<th>task</th><th>phone</th><th>place</th><th class=\"spot\">map</th></tr></thead>"
    print "<tbody>"
    print_cells("", "", clock_time(departure[n]), 0)
    for (k = 1; k < stops[n]; k += 1) {
        stop = stop_at[n, k]
        print_cells(clock_time(arrival[n, k]), clock_time(begin[n, k]), clock_time(begin[n, k] + service[stop]), stop)
    }
    print_cells(clock_time(arrival[n, k]), "", "", 0)
    print "</tbody>"
    print "</table>"
    print "</section>"
}

function print_cells(arrives, begins, leaves, stop) {
    printf "<tr>%s%s%s", data("hour arrive", arrives), data("hour begin", begins), data("hour leave", leaves)
    printf "%s%s%s", data("open", stop ? window(stop) : ""), data("name", stop ? escaped(order_of(stop)) : ""), data("task", stop ? task(stop) : "")
    printf "%s%s%s</tr>\n", data("phone", phone_link(phone[stop])), data("place", place_link(stop)), data("spot", stop ? stop : "")
}

function data(class, content) {
    return "<td class=\"" class "\">" content "</td>"
}

# Prints the orders that are in no van, and why.
function print_rest_section(    n, row, count, i, line) {
    print "<section class=\"van\" id=\"rest\">"
    print "<h2>" REST "</h2>"
    for (n = 1; n <= rests; n += 1) {
        row = rest[n]
        printf "<h3>order %s, %s, stops %d and %d</h3>\n<ul>\n", escaped(order[row]), counted(boxes[row], "box", "boxes"), 2 * row - 1, 2 * row
        print_visit("pick up", 2 * row - 1)
        print_visit("deliver", 2 * row)
        count = split(reason[2 * row - 1] != "" ? reason[2 * row - 1] : NO_REASON, line, "\n")
        for (i = 1; i <= count; i += 1)
            if (line[i] != "")
                print "<li>" escaped(clean(line[i])) "</li>"
        print "</ul>"
    }
    print "</section>"
}

function print_visit(what, stop) {
    printf "<li>%s %s %s %s</li>\n", what, window(stop), phone_link(phone[stop]), place_link(stop)
}

function place_link(stop) {
    return "<a href=\"geo:" degrees[stop] "\">" escaped(place[stop]) "</a>"
}

# Returns a phone number as a link. A text with more than 15 digits, for example two numbers, or with other letters
# stays a text.
function phone_link(text,    digits) {
    digits = text
    if (digits ~ /^\+/)
        sub(/\(0\)/, "", digits)
    gsub(/[ ().-]/, "", digits)
    if (digits !~ /^\+?[0-9]+$/ || length(digits) < 3 || length(digits) > 15 + (digits ~ /^\+/))
        return escaped(text)
    return "<a href=\"tel:" digits "\">" escaped(text) "</a>"
}

# Returns a text for HTML.
function escaped(text) {
    gsub(/&/, "\\&amp;", text)
    gsub(/</, "\\&lt;", text)
    gsub(/>/, "\\&gt;", text)
    gsub(/"/, "\\&quot;", text)
    gsub(/\047/, "\\&#39;", text)
    return text
}

function greater(a, b) {
    return a > b ? a : b
}

function counted(count, one, more) {
    return count " " (count == 1 ? one : more)
}

# Returns how many letters a text has in UTF-8: the bytes that begin one.
function letters(text) {
    gsub(/[\200-\277]/, "", text)
    return length(text)
}

function padded(text, width,    count) {
    for (count = letters(text); count < width; count += 1)
        text = text " "
    return text
}
'
