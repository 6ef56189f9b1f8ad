# Makes one table, with ratios, of the lines that the programs print, and
# writes the same to the file tsv. The file counts has the bytes of libpmemobj,
# the file instructions what a read takes.
BEGIN {
    FS = "\t"
    OFS = "\t"
    format = "  %-16s %-5s %10s %10s %10s %10s %10s %8s %10s %10s%s\n"
}

FILENAME == counts {
    counted[$2, $3, $4] = $8
    next
}

FILENAME == instructions {
    read_takes[$1] = $2
    next
}

{
    place = $3 "\t" $4
    key = $2 SUBSEP place
    if (!(place in stores))
        places[++place_count] = place
    if (!(key in times))
        stores[place] = stores[place] " " $2
    times[key] = times[key] " " $5
    clocks[key] = clocks[key] " " $6
    round_times[key, $1] = round_times[key, $1] " " $5
    rounds[$1] = 1
    if (!(key in slow) || $7 + 0 < slow[key] + 0)
        slow[key] = $7
    bytes[key] = bytes[key] " " (($2, $3, $4) in counted ? counted[$2, $3, $4] : $8)
}

END {
    print "what", "blocks", "store", "sync", "median_ns", "mean_ns", "best_ns", "clock_ns", "slow_ns", "bytes", "ratio", \
        "ratio_of_best", "ratio_same_sync", "instructions" > tsv
    for (p = 1; p <= place_count; p++)
        print_place(places[p])
}

# How a store makes its writes durable: by flushing cache lines or by calls.
function sync_of(store)
{
    return store == "kagutin" || store == "kagutin-ordered" || store == "pmemobj" ? "lines" : "calls"
}

# Sorts the numbers of a list into sorted[1..], gives how many there are.
function sort(list, sorted,    parts, count, i, j)
{
    count = split(list, parts, " ")
    for (i = 1; i <= count; i++) {
        for (j = i - 1; j >= 1 && sorted[j] > parts[i] + 0; j--)
            sorted[j + 1] = sorted[j]
        sorted[j + 1] = parts[i] + 0
    }
    return count
}

function median(list,    sorted, count, i)
{
    count = sort(list, sorted)
    i = int((count + 1) / 2)
    return count % 2 ? sorted[i] : (sorted[i] + sorted[i + 1]) / 2
}

function best(list,    sorted)
{
    sort(list, sorted)
    return sorted[1]
}

function mean(list,    parts, count, i, sum)
{
    count = split(list, parts, " ")
    for (i = 1; i <= count; i++)
        sum += parts[i]
    return sum / count
}

# Each round has a ratio of its own; this is their median.
function ratio(store, base, place,    list, r)
{
    for (r in rounds)
        list = list " " median(round_times[store, place, r]) / median(round_times[base, place, r])
    return sprintf("%.2f", median(list))
}

function whole(number)
{
    return sprintf("%.0f", number)
}

function mean_bytes(key)
{
    return bytes[key] ~ /n\/a/ ? "n/a" : whole(mean(bytes[key]))
}

function print_place(place,    names, count, i, f)
{
    split(place, f, "\t")
    if (f[1] == "reads")
        printf "\nreads of random homes, ns per read\n"
    else if (f[1] == "recovery")
        printf "\nopened again after a power cut with a full log, and one home read, ns per opening\n"
    else
        printf "\n%s, %s %s per commit\n", f[1] == 1 ? "each commit durable by itself" : f[1] " commits durable together", \
        f[2], f[2] == 1 ? "block" : "blocks"
    printf format, "store", "sync", "median ns", "mean ns", "best ns", "slow call", "bytes", "ratio", "best ratio", \
        "same sync", f[1] == "reads" ? sprintf(" %12s", "instructions") : ""
    count = split(stores[place], names, " ")
    for (i = 1; i <= count; i++)
        print_store(names[i], place)
}

# Of a read; of anything else they would leave out what the kernel does.
function instructions_of(store, place)
{
    if (place !~ /^reads/ || !(store in read_takes))
        return ""
    return whole(read_takes[store])
}

function print_store(store, place,    key, sync, m, a, b, ratios, takes)
{
    key = store SUBSEP place
    takes = instructions_of(store, place)
    sync = sync_of(store)
    m = whole(median(times[key]))
    a = whole(mean(times[key]))
    b = whole(best(times[key]))
    ratios[1] = ratio(store, "kagutin", place)
    ratios[2] = sprintf("%.2f", best(times[key]) / best(times["kagutin", place]))
    ratios[3] = ratio(store, sync == "lines" ? "kagutin" : "kagutin-msync", place)
    printf format, store, sync, m, a, b, slow[key] + 0 ? slow[key] : "-", mean_bytes(key), ratios[1], ratios[2], ratios[3], \
        takes == "" ? "" : sprintf(" %12s", takes)
    print place, store, sync, m, a, b, whole(median(clocks[key])), slow[key], mean_bytes(key), ratios[1], ratios[2], \
        ratios[3], takes > tsv
}
