"""Generated folders: several racks and feeds, stripes of both codes, survivors that are absent, changed, or a byte longer or shorter. What
each command says and makes is compared with what tools/reference.py, an independent computation, says of the requests."""

import collections
import hashlib
import random
import re
import shutil
import sys

from .base import FIVE, ROOT, SIX, Folder, folders_to_try

sys.path.insert(0, str(ROOT / "tools"))
import reference  # noqa: E402

Request = collections.namedtuple("Request", "code stripe target length survivors")
Answer = collections.namedtuple("Answer", "outcome data unread")
NAMES = ["rebuilt", "contradiction", "several"]


def row_of(request, coded):
    row = f"rebuild,{request.stripe},{request.target},{request.length},{' '.join(request.survivors)}"
    return row + (f",{request.code}" if coded else "") + "\n"


def name_of(request):
    return f"{request.stripe}.{request.target}"


def tally_of(answers):
    counts = ", ".join(f"{sum(it.outcome == name for it in answers)} {name}" for name in NAMES)
    unread = sum(bool(it.unread) for it in answers)
    return f"{len(answers)} answer{'s' * (len(answers) != 1)}: {counts}; {unread} with unread survivors"


def fields_of(request, answer, coded):
    digest = hashlib.sha256(answer.data).hexdigest() if answer.outcome == "rebuilt" else ""
    fields = [request.stripe, request.target, str(request.length), answer.outcome, digest, " ".join(answer.unread)]
    return ",".join(fields + [request.code] * coded)


def conflict(asked):
    """The first two requests that rebuild one place with different bytes, by their numbers; none where there are none."""
    first = {}
    for number, (request, answer) in enumerate(asked):
        if answer.outcome == "rebuilt":
            earlier = first.setdefault(name_of(request), (number, answer.data))
            if earlier[1] != answer.data:
                return name_of(request), earlier[0], number
    return None


class Tables(Folder):
    def make_store(self, chance):
        """Stripes of both codes in the folder, and their lengths."""
        self.stripes = {}
        for number in range(6):
            name, code = f"s{number}", chance.choice(["6-2-2", "12-2-2"])
            length = chance.randint(1, 6)
            self.stripes[name] = code, length
            for place, data in reference.stripe(code, length, chance).items():
                fate = chance.randrange(30)
                if fate in (0, 1):
                    data = bytes([data[0] ^ chance.randint(1, 255)]) + data[1:]
                elif fate == 2:
                    data += b"\0"
                elif fate == 3:
                    data = data[:-1]
                if fate < 26:
                    (self.store / f"{name}.{place}").write_bytes(data)

    def request(self, chance, coded):
        while True:
            stripe = chance.choice(list(self.stripes))
            code, length = self.stripes[stripe]
            if coded or code == "6-2-2" or all(code == "12-2-2" for code, _ in self.stripes.values()):
                break
        places = reference.code_of(code)[0]
        target = chance.choice([place for place in places if not (self.store / f"{stripe}.{place}").exists()] or places)
        others = [place for place in places if place != target]
        survivors = chance.sample(others, chance.choice([len(others)] * 3 + [4, 6, 12])) if code == "12-2-2" else \
            chance.sample(others, chance.choice([len(others)] * 3 + [3, 6, 7]))
        return Request(code, stripe, target, length, survivors)

    def make_lists(self, chance):
        """The lists of the folder: of each rack its feeds, of each feed its requests."""
        self.racks = []
        wide = all(code == "12-2-2" for code, _ in self.stripes.values())
        for rack in range(chance.choice([2, 3])):
            feeds = []
            for feed in range(chance.choice([1, 1, 2])):
                coded = wide or chance.random() < 0.6
                feeds.append([self.request(chance, coded) for _ in range(chance.randint(2, 7))])
                text = (SIX if coded else FIVE) + "".join(row_of(it, coded) for it in feeds[-1])
                self.list(text, f"rack{rack}.feed{feed}.csv" if feed else f"rack{rack}.csv")
            self.racks.append(feeds)

    def answer(self, request, without=()):
        """What the reference says, with the survivors that are in the folder and have the length."""
        found = {place: self.store / f"{request.stripe}.{place}" for place in request.survivors if place not in without}
        kept = {place: path.read_bytes() for place, path in found.items() if path.is_file() and path.stat().st_size == request.length}
        outcome, _, digits = reference.answer(request.code, request.target, request.length, kept).partition(" ")
        return Answer(outcome, bytes.fromhex(digits), [place for place in found if place not in kept])

    def answered(self):
        return [[[(request, self.answer(request)) for request in feed] for feed in feeds] for feeds in self.racks]

    # ---- the commands

    def check(self, answered):
        """Each survivor that is left out has its note, and there are no mistakes."""
        ended = self.call("check", "in")
        found = re.findall(r"^note: (\S+): line \d+, record (\d+): the survivor (\S+) (.*), and is left out$", ended.stdout, re.M)
        wanted = collections.Counter()
        for rack, feeds in enumerate(answered):
            for feed, asked in enumerate(feeds):
                for number, (request, answer) in enumerate(asked, 1):
                    for place in answer.unread:
                        path = self.store / f"{request.stripe}.{place}"
                        why = f"has {path.stat().st_size} bytes and not {request.length}" if path.exists() else "isn't there"
                        wanted[f"rack{rack}.feed{feed}.csv" if feed else f"rack{rack}.csv", str(number), path.name, why] += 1
        self.assertEqual(collections.Counter(found), wanted)
        lists, notes = sum(map(len, answered)), sum(wanted.values())
        requests = sum(len(feed) for feeds in answered for feed in feeds)
        self.assertEqual(ended.stdout.splitlines()[-1], f"in: good: {len(answered)} racks, {lists} lists, {requests} requests; "
                         f"{notes} note{'s' * (notes != 1)}")
        self.assertEqual(ended.returncode, 0)

    def tell(self, answered):
        """Each request that wasn't rebuilt or left survivors out is named, and the outcomes are counted."""
        asked = [it for feeds in answered for feed in feeds for it in feed]
        ended = self.call("tell", "out", "--lists", "in")
        *named, last = ended.stdout.splitlines()
        self.assertEqual(last, tally_of([answer for _, answer in asked]) + "; 0 requests without an answer")
        found = [re.fullmatch(r"out/(rack\d+)\.report\.csv: request \d+: (.*)", line).groups() for line in named]
        wanted = [(f"rack{rack}", f"{name_of(request)}: {answer.outcome}" + "; left out: " * bool(answer.unread) + " ".join(answer.unread))
                  for rack, feeds in enumerate(answered) for feed in feeds for request, answer in feed
                  if answer.unread or answer.outcome != "rebuilt"]
        self.assertEqual(sorted(found), sorted(wanted))
        self.assertEqual(ended.returncode, int(any(answer.outcome != "rebuilt" for _, answer in asked)))

    def put(self, asked, out, status=None):
        """The rebuilt fragments are in the folder, but for those that it has with other bytes; nothing is where two differ."""
        rebuilt = {name_of(request): answer.data for request, answer in asked if answer.outcome == "rebuilt"}
        missed = sum(answer.outcome != "rebuilt" for _, answer in asked)
        before = {path.name: path.read_bytes() for path in self.store.iterdir()}
        ended = self.call("put", "in", out)
        after = {path.name: path.read_bytes() for path in self.store.iterdir()}
        if conflict(asked):
            self.assertRegex(ended.stderr, r"^\S+: \S+ and \S+ have different bytes\n$")
            self.assertEqual((ended.stdout, ended.returncode, after), ("", 1, before))
            return
        others = [name for name, data in rebuilt.items() if before.get(name, data) != data]
        same = sum(before.get(name) == data for name, data in rebuilt.items())
        written = len(rebuilt) - len(others) - same
        self.assertEqual(after, {**rebuilt, **before})
        self.assertEqual(sorted(ended.stderr.splitlines()), [
            f"in/{name}: exists with different contents; not overwritten (--overwrite replaces it)" for name in sorted(others)])
        self.assertEqual(ended.stdout, f"wrote {written} fragment{'s' * (written != 1)} to in (0 replaced, {same} already present"
                         + (f", {len(others)} with different contents" if others else "")
                         + f"); {missed} request{'s' * (missed != 1)} not rebuilt\n")
        self.assertEqual(ended.returncode, int(bool(others or missed)))
        self.written += written
        for name in rebuilt:
            if name not in before:
                (self.store / name).unlink()

    def split_and_merge(self, chance, asked):
        """The merged report and fragments are those of the whole list in its order."""
        (self.at / "list.csv").write_text(SIX + "".join(row_of(request, True) for request, _ in asked))
        racks, most = chance.randint(1, 3), chance.randint(1, 4)
        options = ["--copy"] * (chance.random() < 0.5)
        ended = self.call("split", "list.csv", "in", "work", "--racks", racks, "--requests", most, *options)
        folders = -(-len(asked) // (racks * most))
        found = missing = 0
        for number in range(folders):
            part = asked[number * racks * most:][:racks * most]
            named = {f"{request.stripe}.{place}" for request, _ in part for place in request.survivors}
            there = {name for name in named if (self.store / name).exists()}
            found, missing = found + len(there), missing + len(named - there)
            given = {path.name: path for path in (self.at / f"work/in/{number}").iterdir() if not path.name.endswith(".csv")}
            self.assertEqual({name: path.read_bytes() for name, path in given.items()},
                             {name: (self.store / name).read_bytes() for name in there})
            self.assertEqual({path.is_symlink() for path in given.values()} - {not options}, set())
        self.assertEqual(ended.stdout.splitlines()[0], f"split {len(asked)} requests into {folders} folder{'s' * (folders != 1)}; "
                         f"fragments that they name: {found} found, {missing} missing")
        for number in range(folders):
            part = asked[number * racks * most:][:racks * most]
            served = -(-len(part) // most)
            self.done(self.call("serve", "work", number), f"folder {number}: served {served} racks, {len(part)} answers")
        ended = self.call("merge", "work", "result")
        different = conflict(asked)
        if different:
            self.refused(ended, f"{different[0]}: the requests {different[1]} and {different[2]} rebuild it with different bytes")
            self.assertFalse((self.at / "result").exists())
            return
        self.done(ended, f"merged {tally_of([answer for _, answer in asked])}")
        coded = any(request.code == "12-2-2" for request, _ in asked)
        rows = [f"{number},{fields_of(request, answer, coded)}\n" for number, (request, answer) in enumerate(asked)]
        self.assertEqual(self.text("result/report.csv"),
                         f"number,stripe,target,length,outcome,digest,unread{',code' * coded}\n" + "".join(rows))
        rebuilt = {name_of(request): answer.data for request, answer in asked if answer.outcome == "rebuilt"}
        self.assertEqual({path.name: path.read_bytes() for path in (self.at / "result").iterdir() if path.suffix != ".csv"
                          and path.name != "SHA256SUMS"}, rebuilt)
        self.assertEqual(sorted(line.split("  ")[1] for line in self.text("result/SHA256SUMS").splitlines()),
                         sorted([*rebuilt, "report.csv"]))
        self.put(asked, "result")

    def damaged(self, chance, answered):
        """The survivor without which alone the answer isn't a contradiction, where there is one; by the list's number and the merged."""
        places, number = [], 0
        for rack, feeds in enumerate(answered):
            for feed, asked in enumerate(feeds):
                for position, (request, answer) in enumerate(asked):
                    places += [(rack, feed, position, number, request)] * (answer.outcome == "contradiction")
                    number += 1
        for rack, feed, position, number, request in chance.sample(places, min(3, len(places))):
            said, status = self.told_apart(request)
            for words in ["in", rack, position, *["--feed", feed] * (feed > 0)], ["work", number]:
                ended = self.call("damaged", *words)
                self.assertEqual((ended.stdout + ended.stderr, ended.returncode), (said + "\n", status), words)
            self.told += status == 0

    def told_apart(self, request):
        read = [place for place in request.survivors if place not in self.answer(request).unread]
        without = {place: self.answer(request, [place]).outcome for place in read}
        suspects = [place for place in read if without[place] != "contradiction"]
        names = " ".join(f"{request.stripe}.{place}" for place in suspects)
        if not suspects:
            return f"{name_of(request)}: a contradiction without each single survivor too: several are damaged, " \
                "or the stripe, the length or the code is wrong", 1
        if len(suspects) > 1 or without[suspects[0]] == "several":
            return f"{name_of(request)}: these can't be told apart, since the answer isn't a contradiction without any one of them: " \
                f"{names}", 1
        return f"{names}: {name_of(request)} is rebuilt without it, and is a contradiction without any other", 0

    def test_each_command_agrees_with_the_reference(self):
        self.written = self.told = 0
        outcomes = collections.Counter()
        for seed in range(max(folders_to_try() // 25, 3)):
            with self.subTest(seed=seed):
                for path in self.at.iterdir():
                    shutil.rmtree(path) if path.is_dir() else path.unlink()
                self.store.mkdir()
                chance = random.Random(seed)
                self.make_store(chance)
                self.make_lists(chance)
                answered = self.answered()
                asked = [it for feeds in answered for feed in feeds for it in feed]
                outcomes.update((answer.outcome, bool(answer.unread)) for _, answer in asked)
                self.check(answered)
                self.farm()
                self.tell(answered)
                self.put(asked, "out")
                self.split_and_merge(chance, asked)
                self.damaged(chance, answered)
        self.assertEqual(set(outcomes), {(name, unread) for name in NAMES for unread in (True, False)})
        self.assertTrue(self.written > 0 and self.told > 0, (self.written, self.told))
