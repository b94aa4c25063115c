"""Holds the examples for C to the reference's text of each recording of samples/recordings: examples.py FOLDER [COMMAND ..]. FOLDER has them as
tools/try_install leaves them, COMMAND runs them; one that is not there is built, over LIBRARY or target/staticlib/libvrt49.a. `stream` must count what the text
has, whether it takes 1, 7 or 65,535 words at a time; `tuning` must print a line for each Context packet; both and `resume` must end with the text's refusal and
its place, `tuning` and `resume` with the field that the reference finds broken; and where there is none, `resume`, stopped after every few packets, must save the
page of a play that was never stopped. `jump` must print the tuning that the reference has after playing all earlier packets one by one, from an index that it has
just made and from one that it finds. What `resume` and `jump` cannot read, write or take they must name, and leave as it is. `samples`, which has its payloads in
itself, must find each sample where loops over their order find it, and `survey`, which has its packets in itself, the items of those by 49A."""
import glob
import os
import re
import subprocess
import sys
import tempfile

ROOT = os.path.dirname(os.path.dirname(os.path.dirname(os.path.abspath(__file__))))
sys.path.insert(0, os.path.join(ROOT, 'tools/reference'))

import panel
import table
import vrt49
import vrtplay

FOLDER, COMMAND = sys.argv[1], sys.argv[2:]
LONGEST = 65536  # the bytes that vrtplay reads, and so what the text speaks of
NEAR = 0, 1, 2, 20, 1023, 1024, 1025, 2047, 2048, 15000  # packets that `jump` is asked for, beside the last
STREAM, LIST, PAGE, PLACE = 11, 12, 19, 21
FIELDS = {29: 'bandwidth', 24: 'level', 21: 'sample rate', 18: 'temperature', 17: 'device', 16: 'state', 15: 'format', 9: 'GPS ASCII', 8: 'lists'}


def names():
    with open(os.path.join(ROOT, 'include/vrt49.h'), encoding='utf-8') as file:
        listed = re.search(r'enum vrt49_refusal \{\n(.*?)\n\};', file.read(), re.S).group(1)
    return {int(number): name for name, number in re.findall(r'^    VRT49_([A-Z]+) = (\d+),? ', listed, re.M)}


NAMES = names()


def built(name):
    """The program of an example."""
    program = os.path.abspath(f'{FOLDER}/{name}.c99_static')
    if not os.path.exists(program):
        compiler = subprocess.run(['tools/cc', '-static'], cwd=ROOT, check=True, capture_output=True, text=True).stdout.split()
        strict = '-std=c99 -O2 -Wall -Wextra -Wshadow -Wconversion -pedantic -Werror -static -Iinclude'.split()
        library = os.environ.get('LIBRARY') or 'target/staticlib/libvrt49.a'
        subprocess.run([*compiler, *strict, f'examples/c/{name}.c', library, '-o', program], cwd=ROOT, check=True)
    return program


def run(name, *arguments, given=None):
    with open(given or os.devnull, 'rb') as file:
        done = subprocess.run([*COMMAND, built(name), *arguments], stdin=file, capture_output=True, text=True)
    return done.returncode, done.stdout, done.stderr


def expected(text):
    """Of a text: packets and missing of each stream, packets of no declared stream, Context packets, and the refusal that ends it, if one does: its packet's
    word, its number, and its place, which LIST has none of."""
    streams, contexts = {}, 0
    for kind, stream, missing in re.findall(r'at \d+ type (\d) stream (\d+) missing (\d+)', text):
        packets, lost = streams.get(int(stream), (0, 0))
        streams[int(stream)] = packets + 1, lost + int(missing)
        contexts += kind == '4'
    refused = [(int(word), int(number), place and int(place)) for word, number, place in re.findall(r'at (\d+) refused (\d+)(?: place (\d+))?\n', text)]
    ends = [one for one in refused if one[1] != STREAM]
    return streams, len(refused) - len(ends), contexts, ends[0] if ends else None


def counted(lines):
    """What `stream` says of streams that had a packet, and of packets of no declared stream."""
    found = re.findall(r'^stream (\d+), .*?: (\d+) packets, (\d+) missing', lines, re.M)
    undeclared = re.findall(r'^of no declared stream: (\d+) packets', lines, re.M)
    return {int(stream): (int(packets), int(missing)) for stream, packets, missing in found if packets != '0'}, int((undeclared or ['0'])[0])


def page(recording, packets):
    """What `resume` has saved at the end, stopped after so many packets each time."""
    with tempfile.TemporaryDirectory() as folder:
        saved, before = os.path.join(folder, 'saved'), None
        while True:
            status, _, _ = run('resume', recording, saved, str(packets))
            with open(saved, 'rb') as file:
                after = file.read()
            if status != 0 or after == before:
                return after
            before = after


def end_of_stream(end):
    """What `stream` says of the refusal that ends a recording."""
    if not end:
        return ''
    return f'refused: {NAMES[end[1]]}' + (f', word {end[2]} of its packet' if end[1] != LIST else '') + '\n'


def words_in(recording):
    with open(recording, 'rb') as file:
        return vrtplay.words_of(file.read())


def end_by_word(end, recording, called):
    """What `tuning` and `resume` say of it, which call the refusal by its name, or by number and name."""
    if not end:
        return ''
    word, number, place = end
    if number == LIST:
        return f'at word {word} refused: {called(LIST)}\n'
    _, again, offset, bit = vrt49.read(words_in(recording)[word:])
    assert (again, offset) == (number, place), (recording, end, again, offset)
    field = f' {bit}, {FIELDS[bit]}' if bit else ''
    return f'at word {word} refused: {called(number)}{field}, word {place} of the packet, {word + place} of the recording\n'


def by_number(number):
    return f'{number} {NAMES[number]}'


def jump_lines(found, packet, word):
    """What `jump` prints where a table of the reference is the one just before a packet, which stands at a word."""
    yield f'packet {packet} is at word {word}\n'
    for number, stream in enumerate(found):
        if 27 in stream['held']:
            _, hertz, parts = panel.frequency(stream['held'][27])
            yield f'stream {number}  at {(hertz + parts / 1048576) / 1e6:.6f} MHz\n'
        else:
            yield f'stream {number}  no frequency yet\n'


def tuned(words, wanted):
    """What `jump` should print of the wanted packets of a recording, and of its end, by playing all packets before each one by one; and how many it has."""
    found, place, packets, lines = vrtplay.started(words), 1 + words[0], 0, {}
    while True:
        if packets in wanted:
            lines[packets] = ''.join(jump_lines(found, packets, place))
        answer = table.play(found, words[place:place + 65535])
        if answer[0] == 'refused' and answer[1] != STREAM:
            return lines | {packets: ''.join(jump_lines(found, packets, place))}, packets
        place += vrt49.size_of(words[place])
        packets += 1


def wrong_jumps(recording, end):
    """Where `jump` prints something else of a recording than playing all earlier packets gives."""
    if end and end[1] == LIST:
        with tempfile.TemporaryDirectory() as folder:
            have = run('jump', recording, f'{folder}/index', '0')
            if have != (1, '', f'{recording} refused: {by_number(LIST)}\n') or os.listdir(folder):
                yield f'jump: {have}'
        return
    ended = f'{recording} refused: {by_number(end[1])}, word {end[2]} of the packet at word {end[0]}\n' if end else ''
    lines, packets = tuned(words_in(recording), NEAR)
    with tempfile.TemporaryDirectory() as folder:
        for at in sorted({packet for packet in NEAR if packet <= packets} | {packets}, reverse=packets % 2 == 1):
            have = run('jump', recording, f'{folder}/index', str(at))
            if have != (0, lines[at], ended):
                yield f'jump {at}: {have}'
            ended = ''  # the index is there now
        have = run('jump', recording, f'{folder}/index', str(packets + 1))
        if have != (1, '', f'{packets + 1} refused: {by_number(PLACE)}\n'):
            yield f'jump {packets + 1}: {have}'


def wrong(recording):
    with open(recording[:-4] + '.txt', encoding='ascii') as file:
        streams, undeclared, contexts, end = expected(file.read())
    status = 1 if end else 0
    for words in ('1', '7', '65535'):
        have = run('stream', words, given=recording)
        if (counted(have[1]), have[0], have[2]) != ((streams, undeclared), status, end_of_stream(end)):
            yield f'stream {words}: {have}'
    have = run('tuning', given=recording)
    if (have[1].count('\n'), have[0], have[2]) != (contexts, status, end_by_word(end, recording, NAMES.get)):
        yield f'tuning: {have}'
    if not end and page(recording, 3 + os.path.getsize(recording) // 256) != page(recording, LONGEST):
        yield 'resume: another page'
    if end:
        with tempfile.TemporaryDirectory() as folder:
            have = run('resume', recording, f'{folder}/saved', str(LONGEST))
            if have != (1, '', end_by_word(end, recording, by_number)) or os.listdir(folder):
                yield f'resume: {have}'
    yield from wrong_jumps(recording, end)


def tree(folder):
    """The files and folders in a folder, and what the files hold."""
    found = {}
    for path in sorted(glob.glob(f'{folder}/**', recursive=True)):
        with open(os.devnull if os.path.isdir(path) else path, 'rb') as file:
            found[path] = file.read()
    return found


def wrong_files(at):
    """Wrong arguments of `resume`, and files that it cannot read, write or take, some of them made in a folder: what it is given, its status, and what it says."""
    survey, usage = os.path.join(ROOT, 'samples/recordings/survey.vrt'), 'resume RECORDING SAVED PACKETS: two files, and how many packets\n'
    saved, damaged, blocked, fresh, none = (f'{at}/{name}' for name in ('saved', 'damaged', 'blocked', 'fresh', 'none'))
    run('resume', survey, saved, '17')
    with open(saved, 'rb') as file, open(damaged, 'wb') as cut:
        words = file.read()
        cut.write(words[:-4])
    os.mkdir(f'{blocked}.new')
    for arguments in (), (survey, fresh), (survey, fresh, '1', '2'), *((survey, fresh, number) for number in ('', 'many', '-1', '1x', ' 1')):
        yield arguments, 2, usage
    for recording, page, name, what in ((none, saved, none, 'read: No such file or directory'), (none, fresh, none, 'read: No such file or directory'),
                                        (at, fresh, at, 'read: Is a directory'), (survey, at, at, 'read: Is a directory'),
                                        (survey, f'{none}/saved', f'{none}/saved', 'written: No such file or directory'),
                                        (survey, blocked, blocked, 'written: Is a directory'),
                                        (survey, fresh + 300 * 'x', fresh + 300 * 'x', 'read: File name too long')):
        yield (recording, page, '1'), 2, f'resume: {name} cannot be {what}\n'
    yield (os.devnull, fresh, '1'), 1, f'at word 0 refused: {by_number(LIST)}\n'
    yield (survey, damaged, '1'), 1, f'{damaged} refused: {by_number(PAGE)}\n'


def long_recording(path):
    """A recording of 2,080 packets: those of the survey, 40 times over."""
    words = words_in(os.path.join(ROOT, 'samples/recordings/survey.vrt'))
    with open(path, 'wb') as file:
        file.write(b''.join(word.to_bytes(4, 'big') for word in words[:1 + words[0]] + 40 * words[1 + words[0]:]))


def put_word(data, at, word):
    """Bytes with another word at a place, counted in words."""
    return data[:4 * at] + word.to_bytes(4, 'big') + data[4 * at + 4:]


def spoilt_indexes(at):
    """Makes a long recording, its index, and files that are no index, each named by what is wrong: of `second` only the page of entry 1 is."""
    long_recording(f'{at}/long')
    run('jump', f'{at}/long', f'{at}/whole', '0')
    with open(f'{at}/whole', 'rb') as file:
        index = file.read()
    second = int.from_bytes(index[40:44], 'big')  # where the page of entry 1 begins
    spoilt = {'cut': index[:-4], 'empty': b'', 'short': index[:4 * 4099], 'entries': put_word(index, 0, 4), 'far': put_word(index, 0, 2**32 - 1),
              'offset': put_word(index, 10, 2**32 - 1), 'page': put_word(index, 4100, 33), 'second': put_word(index, second, 33)}
    for name, data in spoilt.items():
        with open(f'{at}/{name}', 'wb') as file:
            file.write(data)
    return list(spoilt)


def wrong_indexes(at):
    """The same of `jump`."""
    spoilt, usage = spoilt_indexes(at), 'jump RECORDING INDEX N: two files, and the number of a packet\n'
    survey, whole, fresh, none = (f'{at}/{name}' for name in ('long', 'whole', 'fresh', 'none'))
    for arguments in (), (survey, fresh), (survey, fresh, '1', '2'), *((survey, fresh, number) for number in ('', 'many', '-1', '1x', ' 1')):
        yield arguments, 2, usage
    for recording, name, says in ((none, whole, f'{none}: No such file or directory'), (at, fresh, f'{at}: Is a directory'),
                                  (survey, at, f'{at}: Is a directory'), (survey, f'{none}/index', f'{none}/index: No such file or directory')):
        yield (recording, name, '1'), 2, f'{says}\n'
    yield (os.devnull, fresh, '1'), 1, f'{os.devnull} refused: {by_number(LIST)}\n'
    for name, packet in *((name, '0') for name in spoilt if name != 'second'), ('second', '1024'), ('second', '2047'), ('long', '0'):
        yield (survey, f'{at}/{name}', packet), 1, f'{at}/{name} refused: {by_number(PAGE)}\n'
    yield (survey, whole, str(2**64)), 1, f'{2**64} refused: {by_number(PLACE)}\n'


def wrong_with_files(name, cases_in):
    """Where an example says something else of such cases, or a file is afterwards not as it was."""
    with tempfile.TemporaryDirectory() as at:
        cases = list(cases_in(at))
        before = tree(at)
        for arguments, status, says in cases:
            have = run(name, *arguments)
            if have != (status, '', says):
                yield f'{name} {" ".join(arguments)}: {have}'
            if tree(at) != before:
                yield f'{name} {" ".join(arguments)}: the files are not as they were'


def wrong_long():
    """Where `jump` errs in the long recording, also where another entry of its index is damaged; or where its text is not what the reference says."""
    with tempfile.TemporaryDirectory() as at:
        spoilt_indexes(at)
        yield from wrong_jumps(f'{at}/long', None)
        have = run('jump', f'{at}/long', f'{at}/second', '1023')
        if have != (0, tuned(words_in(f'{at}/long'), (1023,))[0][1023], ''):
            yield f'jump 1023, with entry 1 damaged: {have}'
    with open(os.path.join(ROOT, 'examples/c/jump.txt'), encoding='ascii') as file:
        if file.read() != tuned(words_in(os.path.join(ROOT, 'samples/recordings/survey.vrt')), (20,))[0][20]:
            yield 'examples/c/jump.txt: it is not the tuning just before packet 20 of the survey'


def in_order(first):
    """Channel, instant and component of each item of the payloads of `samples`, in their order: two groups of two channels, three samples of each, I and Q."""
    within = [(repeat, component) for repeat in range(3) for component in range(2)]
    if first >> 23 & 1:
        within = [(repeat, component) for component in range(2) for repeat in range(3)]
    return [(channel, 3 * time + repeat, component) for time in range(2) for channel in range(2) for repeat, component in within]


def samples_of(first, words):
    """What `samples` prints of a payload: an item is a byte."""
    items = [int.from_bytes([byte], 'big', signed=True) for word in words for byte in word.to_bytes(4, 'big')]
    part = {at: f'  {"IQ"[at[2]]} {value:4} (item {item:2})' for item, (at, value) in enumerate(zip(in_order(first), items))}
    yield f'format 0x{first:08X} 0x00020001: OK\n'
    for channel in range(2):
        for instant in range(6):
            yield f'channel {channel}  instant {instant}{part[channel, instant, 0]}{part[channel, instant, 1]}\n'


def wrong_samples():
    """Where `samples` prints something else of the payloads in its source."""
    with open(os.path.join(ROOT, 'examples/c/samples.c'), encoding='utf-8') as file:
        source = file.read()
    words = {name: [int(word, 16) for word in listed.split(',')] for name, listed in re.findall(r'(\w+)\[WORDS\] = \{([^}]*)\}', source)}
    payloads = [(int(first, 16), words[name]) for first, name in re.findall(r'print_samples\((0x\w+), (\w+)\)', source)]
    have = run('samples')
    if have != (0, ''.join(line for payload in payloads for line in samples_of(*payload)), '') or len(payloads) != 2:
        yield f'samples: {have}'


# the bits of an item of 49A, by its data type (source document 004, Table 4-5)
ITEM_BITS = {1: 4, 2: 8, 3: 16, 4: 32, 5: 64, 6: 32, 7: 64, 8: 1, 9: 4, 10: 8, 11: 16, 12: 32, 13: 64}


def packets_of(words):
    """The packets that stand one after the other."""
    while words:
        size = words[0] & 0xFFFF
        yield words[:size]
        words = words[size:]


def survey_line(packet):
    """What `survey` prints of a data packet by 49A without time: its items, cut from the bits of its payload, behind four words and before the trailer."""
    bits, payload = ITEM_BITS[packet[3] >> 16 & 15], ''.join(f'{word:032b}' for word in packet[4:-1])
    payload = payload[:len(payload) - (packet[2] >> 27)]
    items = [f'{int(payload[at:at + bits], 2):X}' for at in range(0, len(payload), bits)]
    what = f'{"complex" if packet[3] >> 20 & 3 else "real"}, vectors of {(packet[3] & 0xFFFF) + 1}'
    return f'{len(items)} items of {bits} bits, {what}: {" ".join(items)}\n'


def wrong_survey():
    """Where `survey` prints something else of the packets in its source."""
    with open(os.path.join(ROOT, 'examples/c/survey.c'), encoding='utf-8') as file:
        source = re.sub(r'/\*.*?\*/', '', file.read(), flags=re.S)
    listed = {name: [one.strip() for one in cells.split(',')] for name, cells in re.findall(r'(\w+)\[(?:WORDS)?\] = \{([^}]*)\}', source)}
    by_survey = [int(identifier, 0) for identifier, choice in zip(listed['ids'], listed['choices']) if choice == 'VRT49_SURVEY']
    lines = [survey_line(packet) for packet in packets_of([int(word, 0) for word in listed['words']]) if packet[1] in by_survey]
    have = run('survey')
    if have != (0, ''.join(lines), '') or len(lines) != 2:
        yield f'survey: {have}'


found = tried = 0
for line in [*wrong_with_files('resume', wrong_files), *wrong_with_files('jump', wrong_indexes), *wrong_long(), *wrong_samples(), *wrong_survey()]:
    found += 1
    print(line)
for recording in sorted(glob.glob(os.path.join(ROOT, 'samples/recordings/*.vrt'))):
    if os.path.getsize(recording) > LONGEST:
        continue
    tried += 1
    for line in wrong(recording):
        found += 1
        print(f'{os.path.basename(recording)}: {line}')
print(f'examples: {tried} recordings, {found or "no"} difference{"s" if found > 1 else ""}')
sys.exit(1 if found else 0)
