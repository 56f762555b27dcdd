"""Answers the requests of docs/QUESTIONS.md by the definitions alone. What stands here is the format: numbers, bytes and words as
text. Every test, number and byte comes from crates/*/specs."""
import struct
import zlib

from language import apply, load

METRICS = ["SquaredL2", "Cosine", "InnerProduct"]
# how many numbers and parts each call has
SHAPES = {
    1: (0, 1), 2: (0, 1), 3: (1, 0), 4: (5, 0), 5: (1, 1), 6: (2, 0), 7: (3, 1), 8: (3, 2), 9: (0, 2), 10: (8, 3), 11: (8, 3), 12: (9, 3),
    13: (9, 3), 14: (5, 2), 15: (5, 2), 16: (2, 1), 17: (3, 3), 18: (3, 3), 19: (10, 1), 20: (3, 2), 21: (0, 1), 22: (0, 1), 23: (4, 0),
}  # fmt: skip
BAD_REQUEST = ["bad request"]


def definition(path, *arguments):
    """A definition by crate, file and name, of these arguments."""
    crate, name, defined = path.split("/")
    return apply(load(crate, name).values[defined], *arguments)


# ---- requests


def requests(stream):
    """The requests of a stream, without their length."""
    at = 0
    while at < len(stream):
        (length,) = struct.unpack_from("<I", stream, at)
        yield stream[at + 4 : at + 4 + length]
        at += 4 + length


def parts_of(request):
    """A request's call, numbers and parts, or None where the bytes are no request."""
    try:
        call, many = request[0], request[1]
        numbers = list(struct.unpack_from("<%dQ" % many, request, 2))
        at = 3 + 8 * many
        parts = []
        for _ in range(request[at - 1]):
            (length,) = struct.unpack_from("<I", request, at)
            parts.append(list(request[at + 4 : at + 4 + length]))
            at += 4 + length
    except (IndexError, struct.error):
        return None
    if at != len(request) or SHAPES.get(call) != (len(numbers), len(parts)):
        return None
    return call, numbers, parts


def words(part, size):
    """The little-endian words of a part, or None where it does not hold whole ones."""
    if len(part) % size:
        return None
    return list(struct.unpack("<%d%s" % (len(part) // size, "Q" if size == 8 else "I"), bytes(part)))


# ---- atoms


def shown_bytes(items):
    items = bytes(items)
    return f"{len(items)}:{items.hex()}" if len(items) <= 4096 else f"{len(items)}#{zlib.crc32(items)}"


def shown_words(items):
    if len(items) > 64:
        return f"{len(items)}#{zlib.crc32(struct.pack('<%dQ' % len(items), *items))}"
    end = max([place + 1 for place, item in enumerate(items) if item], default=0)
    return f"{len(items)}:" + ",".join(map(str, items[:end]))


def shown_settings(config):
    metric = definition("config/Settings/metric_number", config["metric"])
    return f"d {config['dimensions']} m {config['m']} ef {config['ef_construction']} seed {config['seed']} metric {metric}"


def settings(numbers):
    d, m, ef, seed, metric = numbers[:5]
    return definition("config/Settings/settings", d, m, ef, seed, (METRICS[metric],))


def number(refusal):
    return definition("refusal/Refusal/number", refusal)


def refused(result):
    return result[0] == "Err"


def shown_records(d, rows, snapshot, log):
    for node, row in enumerate(rows):
        record = definition("meaning/Records/seen", d, snapshot, log, row)
        state = "gone" if record["deleted"] else "live"
        yield f"{node} {record['id']} {state} {shown_bytes(record['vector'])} {shown_bytes(record['caption'])}"


def shown_tables(tables):
    return ["rows " + shown_words(tables["rows"]), "active " + shown_words(tables["active"])]


def shown_output(name, output, result):
    first = f"refused {number(result[1])}" if refused(result) else f"{name} {len(result[1])}"
    return [first, "output " + shown_bytes(definition("meaning/Calls/output_after", output, result))]


# ---- calls


def crc(numbers, parts):
    return [f"crc {definition('crc32/Crc/crc_of', parts[0])}"]


def utf8(numbers, parts):
    return ["utf8 yes" if definition("utf8/Utf8/is_utf8", parts[0]) else "utf8 no"]


def defaults(numbers, parts):
    return ["settings " + shown_settings(definition("config/Settings/defaults", numbers[0]))]


def checked(result):
    return [f"refused {number(result[1])}" if refused(result) else "valid"]


def validate(numbers, parts):
    return BAD_REQUEST if numbers[4] > 2 else checked(definition("config/Settings/validate", settings(numbers)))


def coordinates(numbers, parts):
    size = len(parts[0])
    if numbers[0] > 2 or size % 4 or not 4 <= size <= 16384:
        return BAD_REQUEST
    cosine = definition("config/Settings/is_cosine", (METRICS[numbers[0]],))
    return checked(definition("coordinates/Coordinates/coordinates_of", cosine, size // 4, parts[0]))


def rng_state(numbers, parts):
    return [f"rng {definition('rng/Rng/rng_state', *numbers)}"]


def lent_tables(numbers):
    fill = numbers[-1]
    return [fill] * numbers[0], [fill % 2**32] * numbers[1]


def read_snapshot(numbers, parts):
    rows, entries = lent_tables(numbers)
    result = definition("meaning/Calls/read_call", rows, entries, parts[0])
    tables = shown_tables(definition("meaning/Calls/read_tables", rows, entries, result))
    if refused(result):
        return [f"refused snapshot {number(result[1])}"] + tables
    found = result[1]
    d = found["config"]["dimensions"]
    size = definition("meaning/Replay/size", definition("meaning/Records/row_kind", d), found["rows"])
    active = definition("meaning/Recovery/live_count", found["rows"])
    first = f"accepted {shown_settings(found['config'])} crc {found['crc']} sequence {found['sequence']}"
    return [f"{first} records {len(found['rows'])} active {active} size {size}"] + tables + list(shown_records(d, found["rows"], parts[0], []))


def shown_recovery(result, log):
    if result[0] == "refused_snapshot":
        return f"refused snapshot {number(result[1])}"
    if result[0] == "refused_log":
        return f"refused log {number(result[1])} at {result[2]}"
    told = definition("meaning/Calls/recovery_told", log, result[1])
    names = ["crc", "sequence", "records", "active", "replayed", "skipped", "keep", "tail", "size"]
    return " ".join(["accepted", shown_settings(told["config"])] + [f"{name} {told[name]}" for name in names])


def recover(numbers, parts):
    rows, entries = lent_tables(numbers)
    result = definition("meaning/Calls/recover_call", rows, entries, *parts)
    tables = shown_tables(definition("meaning/Calls/recover_tables", rows, entries, result))
    records = []
    if result[0] == "recovered":
        records = shown_records(result[1]["config"]["dimensions"], result[1]["state"]["records"], *parts)
    return [shown_recovery(result, parts[1])] + tables + list(records)


def recover_and_write(extent):
    def call(numbers, parts):
        rows, entries = lent_tables(numbers)
        output = [numbers[3] % 256] * numbers[2]
        result = definition("meaning/Calls/recover_call", rows, entries, *parts)
        if result[0] != "recovered":
            return [shown_recovery(result, parts[1]), "output " + shown_bytes(output)]
        told = definition("meaning/Calls/recovery_told", parts[1], result[1])
        words_left = definition("meaning/Calls/recover_tables", rows, entries, result)["rows"]
        arguments = (told["config"], told["sequence"], words_left, told["records"], *parts, output)
        return shown_output("written", output, definition("meaning/Calls/write_call", (extent,), *arguments))

    return call


def listing(numbers, parts):
    files = [("found", part) for part in parts]
    return ["listing " + shown_bytes(definition("listing_text/Files/listing_of", *files))]


def encode(shape):
    def call(numbers, parts):
        operations, coords = words(parts[0], 8), words(parts[1], 4)
        if numbers[4] > 2 or operations is None or coords is None:
            return BAD_REQUEST
        output = [numbers[7] % 256] * numbers[6]
        arguments = (settings(numbers), numbers[5], operations, coords, parts[2], output)
        return shown_output("encoded", output, definition("meaning/Calls/encode_call", (shape,), *arguments))

    return call


def write(extent):
    def call(numbers, parts):
        rows = words(parts[0], 8)
        if numbers[4] > 2 or rows is None:
            return BAD_REQUEST
        output = [numbers[8] % 256] * numbers[7]
        arguments = (settings(numbers), numbers[5], rows, numbers[6], parts[1], parts[2], output)
        return shown_output("written", output, definition("meaning/Calls/write_call", (extent,), *arguments))

    return call


def lookup(numbers, parts):
    rows = words(parts[0], 8)
    if rows is None:
        return BAD_REQUEST
    result = definition("meaning/Views/lookup", rows, *numbers)
    if refused(result):
        return [f"refused {number(result[1])}"]
    return [" ".join(map(str, result[1]))]


def view(shown):
    def call(numbers, parts):
        rows = words(parts[0], 8)
        if rows is None:
            return BAD_REQUEST
        d, count, node = numbers
        result = definition("meaning/Views/view", (shown,), d, rows, count, node, parts[1], parts[2])
        part = definition("sources/Sources/bytes_of", parts[1], parts[2], definition("meaning/Views/given", result))
        return [f"number {definition('refusal/Refusal/number_told', result)}", "part " + shown_bytes(part)]

    return call


def delete_frame(numbers, parts):
    sequence, node_id, room, fill = numbers
    output = [fill % 256] * room
    written = definition("meaning/Calls/delete_count", sequence, output)
    return [f"written {written}", "output " + shown_bytes(definition("meaning/Calls/delete_output", sequence, node_id, output))]


def read_cache(numbers, parts):
    if numbers[4] > 2 or numbers[5] >= 2**32:
        return BAD_REQUEST
    crc_of_snapshot, sequence, count, lent = numbers[5:9]
    result = definition("graph/Cache/read_cache", settings(numbers), crc_of_snapshot, sequence, count, lent, parts[0])
    starts = definition("graph/Told/starts_after", lent, result)
    lines = ["starts " + shown_words(starts)]
    if refused(result):
        return [f"refused {number(result[1])}"] + lines
    header, graph = result[1]["header"], result[1]["graph"]
    entry = header["entry"][1]["0"] if header["entry"][0] == "Some" else "none"
    for node, levels in enumerate(graph):
        shown = [",".join(map(str, level)) or "-" for level in levels]
        lines.append(f"{node} {len(levels)} {'|'.join(shown)}")
    return [f"accepted nodes {len(graph)} entry {entry} rng {header['rng_state']}"] + lines


def neighbours(numbers, parts):
    starts = words(parts[0], 8)
    if starts is None:
        return BAD_REQUEST
    result = definition("graph/Neighbours/neighbours", parts[1], starts, *numbers)
    part = definition("graph/Neighbours/part_of", parts[1], definition("graph/Neighbours/part_given", result))
    return [f"number {definition('refusal/Refusal/number_told', result)}", "part " + shown_bytes(part)]


CALLS = {
    1: crc, 2: utf8, 3: defaults, 4: validate, 5: coordinates, 6: rng_state, 7: read_snapshot, 8: recover, 9: listing, 10: encode("Single"),
    11: encode("Batch"), 12: write("Full"), 13: write("Compacted"), 14: recover_and_write("Full"), 15: recover_and_write("Compacted"),
    16: lookup, 17: view("Caption"), 18: view("Vector"), 19: read_cache, 20: neighbours, 21: crc, 22: utf8, 23: delete_frame,
}  # fmt: skip


def answer(request):
    """The lines of an answer, without the last."""
    asked = parts_of(request)
    if asked is None:
        return BAD_REQUEST
    call, numbers, parts = asked
    return CALLS[call](numbers, parts)
