#!/usr/bin/env python3
"""Random calls of queues, each answer compared with a plain definition that scans lists.

    tests/queues.py [--calls N] [--queues N] [--seed N] [--bent]

A program of flow_queue's own sources, tried without a proof (`rt try`), makes the calls on many queues of the four
orders: put, check out, back, leave one by one and many at once, swap out and in, enter a batch, and every question, at
moments that lie on the limits too. With --bent it is tried again with one mistake after another, each of which some
answer has to show, or that it stops. To build it takes a minute of the processor each time.
"""

import os
import random
import shutil
import subprocess
import sys

from support import LONGEST, ROOT, Report, need, new_folder, options, parse_seeded

# What the program stands on, of the repository.
BELOW = ("flowfile_record", "prioritizer", "expr_lang", "machine_model")

# The most bytes of a content, and the most fragments of a whole.
CONTENT_MAX = 16_777_216
TAKEN_MAX = 1_000

# After so many steps a trial ends: more than any number of calls here needs.
STEPS = 10**12

ORDERS = {"first": "FirstInFirstOut", "newest": "NewestFlowFileFirst", "oldest": "OldestFlowFileFirst",
          "priority": "PriorityAttribute"}

PRIORITIES = (None, None, "1", "2", "10", "-3", "+2", "02", "abc", "A-9", "A-10", "", "-", "9223372036854775807",
              "9223372036854775808", "-9223372036854775808", "-9223372036854775809")

MAIN = """//! Makes calls of queues, one for each line of the input, and prints what they answer.
#![tactic(auto)]

mod batch;
mod calls;
mod held;
mod queue;

pub use machine_model::{QueueLimits, TakeRule};
pub use queue::Queue;

use anyhow::Result;
use std::io::{BufRead, BufReader};

fn main(rt: HostRuntime) -> Result<()> {
    let alloc = rt.alloc();
    let mut queues = Vec::new(alloc);
    let mut answers = String::new(alloc);
    for line in BufReader::new(alloc, rt.reader())?.lines(alloc) {
        let line = line?;
        let answer = calls::answer_to(alloc, &mut queues, line.as_str())?;
        answers.push_str(answer.as_str())?;
        answers.push_str("\\n")?;
    }
    print!(rt; "{}", answers.as_str())?;
    Ok(())
}
"""

CALLS = """//! A call of a queue, as a line has it: its words stand between blanks.
use crate::queue::Queue;
use anyhow::{Context, Result, bail};
use flowfile_record::{Attributes, ContentRef, DIGEST_SIZE, FlowFile};
use machine_model::{QueueLimits, TakeRule};
use prioritizer::{Order, Prioritizer};
use std::alloc::Global;

// How many words a file has.
const FILE_WORDS: usize = 9;

pub fn answer_to(alloc: Global, queues: &mut Vec<Queue>, line: &str) -> Result<String> {
    let mut words = Vec::new(alloc);
    for word in line.split(' ') {
        words.push(word)?;
    }
    let words = words.as_slice();
    let call = word(words, 0)?;
    if call == "new" {
        queues.push(queue(alloc, words)?)?;
        return Ok(String::new(alloc));
    }
    let place = number(words, 1)? as usize;
    if place >= queues.len() {
        bail!("no queue");
    }
    let queue = &mut queues[place];
    if changes(alloc, queue, call, words)? {
        return Ok(String::new(alloc));
    }
    asked(alloc, queue, call, words)
}

fn changes(alloc: Global, queue: &mut Queue, call: &str, words: &[&str]) -> Result<bool> {
    match call {
        "put" => {
            queue.reserve(1)?;
            queue.put(file(alloc, words, 2)?);
        }
        "out" => queue.check_out(number(words, 2)?),
        "back" => queue.back(number(words, 2)?),
        "leave" => {
            for place in 2..words.len() {
                let number = number(words, place)?;
                let file = queue.leave(number);
                if file.number != number {
                    bail!("another file left");
                }
            }
        }
        "leave_all" => queue.leave_all(numbers(alloc, words, 2)?.as_slice()),
        "swap_out" => {
            let numbers = numbers(alloc, words, 3)?;
            queue.reserve(0)?;
            queue.swap_out(number(words, 2)?, numbers.as_slice());
        }
        "known" => {
            queue.reserve(0)?;
            queue.known_batch(number(words, 2)?, number(words, 3)?, number(words, 4)?);
        }
        "swap_in" => {
            let mut files = Vec::new(alloc);
            let count = (words.len() - 3) / FILE_WORDS;
            for place in 0..count {
                files.push(file(alloc, words, 3 + place * FILE_WORDS)?)?;
            }
            queue.reserve(count as u32)?;
            queue.swap_in(number(words, 2)?, files);
        }
        _ => return Ok(false),
    }
    Ok(true)
}

fn asked(alloc: Global, queue: &Queue, call: &str, words: &[&str]) -> Result<String> {
    let mut list = Vec::new(alloc);
    match call {
        "best" => option_in_words(alloc, queue.best(number(words, 2)?)),
        "pick" => {
            let found = queue.pick(rule(words)?, number(words, 2)?, &mut list)?;
            list_in_words(alloc, found, list.as_slice())
        }
        "expired" => {
            queue.expired(number(words, 2)?, &mut list)?;
            list_in_words(alloc, true, list.as_slice())
        }
        "out_batch" => {
            let found = queue.out_batch(&mut list)?;
            list_in_words(alloc, found, list.as_slice())
        }
        "in_due" => option_in_words(alloc, queue.in_due()),
        "full" => Ok(format!(in alloc; "{}", queue.is_full())?),
        "end" => option_in_words(alloc, queue.next_penalty_end(number(words, 2)?)),
        "len" => Ok(format!(in alloc; "{}", queue.len())?),
        _ => bail!("no call"),
    }
}

fn option_in_words(alloc: Global, option: Option<u64>) -> Result<String> {
    match option {
        Some(number) => Ok(format!(in alloc; "{number}")?),
        None => Ok(String::from_str(alloc, "none")?),
    }
}

fn list_in_words(alloc: Global, found: bool, numbers: &[u64]) -> Result<String> {
    if !found {
        return Ok(String::from_str(alloc, "none")?);
    }
    let mut told = String::from_str(alloc, "some")?;
    for number in numbers {
        told.push_str(format!(in alloc; " {number}")?.as_str())?;
    }
    Ok(told)
}

fn word<'a>(words: &[&'a str], place: usize) -> Result<&'a str> {
    let word = words.get(place).context("a word is missing")?;
    Ok(*word)
}

fn number(words: &[&str], place: usize) -> Result<u64> {
    let Ok(number) = word(words, place)?.parse::<u64>() else {
        bail!("no number");
    };
    Ok(number)
}

fn numbers(alloc: Global, words: &[&str], from: usize) -> Result<Vec<u64>> {
    let mut numbers = Vec::new(alloc);
    for place in from..words.len() {
        numbers.push(number(words, place)?)?;
    }
    Ok(numbers)
}

fn rule(words: &[&str]) -> Result<TakeRule> {
    match word(words, 3)? {
        "source" => Ok(TakeRule::Source),
        "one" => Ok(TakeRule::One),
        "defragment" => Ok(TakeRule::Defragment),
        _ => Ok(TakeRule::Bin {
            min: number(words, 4)? as u32,
            max: number(words, 5)? as u32,
        }),
    }
}

fn queue(alloc: Global, words: &[&str]) -> Result<Queue> {
    let mut list = Vec::new(alloc);
    for place in 5..words.len() {
        list.push(Prioritizer::named(word(words, place)?).context("no prioritizer")?)?;
    }
    let limits = QueueLimits {
        expiration: number(words, 1)?,
        objects: number(words, 2)?,
        bytes: number(words, 3)?,
        swap: number(words, 4)? as u32,
    };
    Ok(Queue::new(alloc, Order::new(list), limits))
}

fn file(alloc: Global, words: &[&str], from: usize) -> Result<FlowFile> {
    let mut attributes = Attributes::new(alloc);
    for (place, key) in KEYS.iter().enumerate() {
        let value = word(words, from + 5 + place)?;
        if let Some(value) = value.strip_prefix("=") {
            attributes.put(key, value)?;
        }
    }
    Ok(FlowFile {
        number: number(words, from)?,
        attributes,
        content: ContentRef {
            slot: 0,
            offset: 0,
            size: number(words, from + 1)?,
            digest: [0; DIGEST_SIZE],
        },
        entered: number(words, from + 2)?,
        penalty_end: number(words, from + 3)?,
        arrival: number(words, from + 4)?,
    })
}

const KEYS: [&str; 4] = [
    "priority",
    "fragment.identifier",
    "fragment.index",
    "fragment.count",
];
"""

# A call that takes the first file in the order too.
TOO_MANY = """        self.leave_together(numbers);
        if let Some(note) = self.by_rank.front() {
            let number = note.number;
            self.leave(number);
        }
"""

# Mistakes that some answer has to show: lines of the sources, and what stands there instead.
BENT = {
    "a file in flight is handed out":
        [("src/held.rt", "!self.in_flight && !self.is_penalised(moment)", "!self.is_penalised(moment)")],
    "an expiry comes a millisecond late":
        [("src/held.rt", "limits.expiration <= moment.saturating_sub", "limits.expiration < moment.saturating_sub")],
    "a penalty ends a millisecond early":
        [("src/held.rt", "moment < self.file.penalty_end", "moment + 1 < self.file.penalty_end"),
         ("src/queue/ranked.rt", "moment < note.penalty_end", "moment + 1 < note.penalty_end")],
    "files go by their arrival alone":
        [("src/held.rt", "self.compare(other, order).is_lt()", "self.file.arrival < other.file.arrival")],
    "the youngest file is asked whether one has expired":
        [("src/queue/ages.rt", "ages.front()", "ages.back()")],
    "a file that comes isn't counted for its whole":
        [("src/queue/counts.rt", "self.put(WholeCount { number, files });",
          "self.put(WholeCount { number, files: files.max(2) - 1 });")],
    "files that leave together still count with their bytes":
        [("src/queue/leaving.rt", "        self.bytes -= bytes;\n", "")],
    "one file too many leaves":
        [("src/queue/leaving.rt", "        self.leave_together(numbers);", TOO_MANY)],
    "the highest batch comes back":
        [("src/queue/swapping.rt", ".map(|batch| batch.number).min()", ".map(|batch| batch.number).max()")],
    "a batch comes back without its last file":
        [("src/queue/swapping.rt", "        for file in files {",
          "        let mut files = files;\n        let _ = files.pop();\n        for file in files {")],
}


# ---- the definition: a queue as a list that is scanned

def number_of(text):
    """The number that a priority is, if it is one in 64 bits."""
    sign, digits = (text[0], text[1:]) if text[:1] in ("-", "+") else ("", text)
    if not digits or any(digit not in "0123456789" for digit in digits):
        return None
    value = int(digits)
    if sign == "-":
        return -value if value <= 2**63 else None
    return value if value < 2**63 else None


def worth_of(text):
    if text is None:
        return (2, 0, b"")
    number = number_of(text)
    return (1, 0, text.encode()) if number is None else (0, number, b"")


class File:
    def __init__(self, number, size, entered, penalty_end, arrival, attributes):
        self.number, self.size, self.entered = number, size, entered
        self.penalty_end, self.arrival, self.attributes = penalty_end, arrival, attributes
        self.in_flight = False

    def words(self):
        values = ["-" if value is None else "=" + value for value in self.attributes]
        return [self.number, self.size, self.entered, self.penalty_end, self.arrival, *values]

    def fragment(self):
        """Its whole (identifier and count) and its index, if it is a fragment."""
        _, identifier, index, count = self.attributes
        index, count = (number_of(text) if text is not None else None for text in (index, count))
        if identifier is None or index is None or count is None or not 1 <= index <= count <= TAKEN_MAX:
            return None
        return (identifier, count), index


class Listed:
    """A queue: its files in the order in which they came, and its batches with theirs."""

    def __init__(self, order, expiration, objects, size, swap):
        self.order, self.expiration, self.objects, self.size, self.swap = order, expiration, objects, size, swap
        self.files, self.batches = [], {}

    def standing(self, file):
        told = {"FirstInFirstOut": file.arrival, "NewestFlowFileFirst": -file.entered,
                "OldestFlowFileFirst": file.entered, "PriorityAttribute": worth_of(file.attributes[0])}
        return [told[name] for name in self.order or ["OldestFlowFileFirst"]] + [file.arrival]

    def ordered(self, files):
        return sorted(files, key=self.standing)

    def is_expired(self, file, moment):
        return self.expiration > 0 and max(moment - file.entered, 0) >= self.expiration

    def eligible(self, moment):
        return self.ordered(file for file in self.files if not file.in_flight and not moment < file.penalty_end
                            and not self.is_expired(file, moment))

    def resting(self):
        return [file for file in self.files if not file.in_flight]

    def best(self, moment):
        return next((file.number for file in self.eligible(moment)), None)

    def pick(self, moment, rule, least=0, most=0):
        files = self.eligible(moment)
        if rule == "one":
            return [file.number for file in files[:1]] or None
        if rule == "bin":
            return bin_of(files, least, most)
        return whole_of(files) if rule == "defragment" else None

    def expired(self, moment):
        return sorted(file.number for file in self.resting() if self.is_expired(file, moment))

    def out_batch(self):
        ordered, size = self.ordered(self.resting()), self.swap // 2
        if len(ordered) < self.swap + size:
            return None
        return [file.number for file in ordered[len(ordered) - size:]]

    def in_due(self):
        return min(self.batches, default=None) if len(self.files) < self.swap else None

    def full(self):
        swapped = [file for files in self.batches.values() for file in files]
        files, size = self.files + swapped, sum(file.size for file in self.files + swapped)
        return 0 < self.objects <= len(files) or 0 < self.size <= size

    def end(self, moment):
        return min((file.penalty_end for file in self.files if file.penalty_end > moment), default=None)


def bin_of(files, least, most):
    room, taken = CONTENT_MAX, []
    for file in files:
        if len(taken) == most:
            break
        if file.size > room:
            return [one.number for one in taken] if taken else None
        room -= file.size
        taken.append(file)
    # A full bin is filled too if the file after it wouldn't fit.
    passes = len(taken) == most and len(files) > most and files[most].size > room
    return [file.number for file in taken] if taken and (least <= len(taken) or passes) else None


def whole_of(files):
    for file in files:
        if file.fragment() is None:
            return [file.number]
        whole, _ = file.fragment()
        parts = [next((one.number for one in files if one.fragment() == (whole, index)), None)
                 for index in range(1, whole[1] + 1)]
        if None not in parts:
            return parts
    return None


# ---- calls at random, and what they have to answer

class Caller:
    def __init__(self, count):
        self.lines, self.answers = [], []
        self.queues = [self.queue(place) for place in range(count)]
        self.asked = dict.fromkeys(("put", "out", "back", "leave", "leave_all", "swap_out", "swap_in", "known", "best",
                                    "pick", "expired", "out_batch", "in_due", "full", "end", "len"), 0)

    def say(self, answer, *words):
        self.lines.append(" ".join(map(str, words)))
        self.answers.append(answer)

    def queue(self, place):
        # One of the four orders, for one queue in eight behind another, and for one in eight none.
        order = [list(ORDERS.values())[place % 4]]
        if place % 8 == 7:
            order = random.sample(list(ORDERS.values()), 2) if place % 16 == 7 else []
        queue = Listed(order, random.choice((0, 0, 5, 20)), random.choice((0, 0, 12)), random.choice((0, 0, 300)),
                       random.choice((0, 2, 5, 8, 20)))
        self.say("", "new", queue.expiration, queue.objects, queue.size, queue.swap, *order)
        return queue

    def call(self):
        place = random.randrange(len(self.queues))
        queue = self.queues[place]
        few = len(queue.batches) < 6
        weights = {"put": 30 if len(queue.files) < 40 else 3, "out": 8, "back": 6, "leave": 6, "leave_many": 1,
                   "leave_all": 3, "swap_out": 3 if few else 0, "swap_in": 3 if few else 20,
                   "known": 0.3 if few else 0, "best": 12, "pick": 16, "expired": 7, "out_batch": 4, "in_due": 4,
                   "full": 4, "end": 6, "len": 2}
        name = random.choices(list(weights), list(weights.values()))[0]
        getattr(self, "make_" + name)(place, queue)

    def count(self, name):
        self.asked[name] += 1

    def moment(self, queue):
        """Often one at which something begins or ends."""
        if queue.files and random.random() < 0.7:
            file = random.choice(queue.files)
            at = random.choice((file.penalty_end, file.entered + queue.expiration))
            return max(at + random.choice((-1, 0, 0, 1)), 0)
        return random.randrange(60)

    def file(self, queue, number=None, size=None):
        all_files = queue.files + [file for files in queue.batches.values() for file in files]
        numbers, arrivals = {file.number for file in all_files}, {file.arrival for file in all_files}
        number = random.choice([n for n in random.sample(range(5_000), 200) if n not in numbers])
        arrival = random.choice([n for n in random.sample(range(5_000), 200) if n not in arrivals])
        if size is None:
            size = random.choice((0, 1, 7, 20, 20, 50, CONTENT_MAX // 3, CONTENT_MAX - 1, CONTENT_MAX))
        fragment = (random.choice("ab"), str(random.randrange(1, 4)), str(random.randrange(1, 4)))
        if random.random() < 0.25:
            fragment = random.choice(((None, "1", "1"), ("a", "0", "1"), ("a", "x", "1"), ("b", "3", "2"),
                                      (None, None, None)))
        return File(number, size, random.randrange(40), random.choice((0, 0, random.randrange(60))), arrival,
                    (random.choice(PRIORITIES), *fragment))

    def make_put(self, place, queue):
        file = self.file(queue)
        self.say("", "put", place, *file.words())
        queue.files.append(file)
        self.count("put")

    def mark(self, place, queue, in_flight):
        files = [file for file in queue.files if file.in_flight != in_flight]
        if files:
            file = random.choice(files)
            file.in_flight = in_flight
            name = "out" if in_flight else "back"
            self.say("", name, place, file.number)
            self.count(name)

    def make_out(self, place, queue):
        self.mark(place, queue, True)

    def make_back(self, place, queue):
        self.mark(place, queue, False)

    def make_leave(self, place, queue, most=1, name="leave"):
        files = random.sample(queue.files, min(most, len(queue.files)))
        if files or name == "leave_all":
            self.say("", name, place, *(file.number for file in files))
            queue.files = [file for file in queue.files if file not in files]
            self.count(name)

    def make_leave_many(self, place, queue):
        self.make_leave(place, queue, random.randrange(2, 20))

    def make_leave_all(self, place, queue):
        # Mostly one, which of many leaves as if alone.
        self.make_leave(place, queue, random.choice((0, 1, 1, 1, 1, 1, 1, 2, 5, 20, len(queue.files))), "leave_all")

    def free_batch(self, queue):
        return random.choice([n for n in range(30) if n not in queue.batches])

    def make_swap_out(self, place, queue):
        resting = queue.resting()
        numbers = queue.out_batch()
        if numbers is None or random.random() < 0.2:
            numbers = [file.number for file in random.sample(resting, random.randrange(len(resting) + 1) // 2)]
        batch = self.free_batch(queue)
        self.say("", "swap_out", place, batch, *numbers)
        queue.batches[batch] = [file for file in queue.files if file.number in numbers]
        queue.files = [file for file in queue.files if file.number not in numbers]
        self.count("swap_out")

    def make_swap_in(self, place, queue):
        if queue.batches:
            batch = queue.in_due()
            if batch is None or random.random() < 0.2:
                batch = random.choice(list(queue.batches))
            files = queue.batches.pop(batch)
            random.shuffle(files)
            self.say("", "swap_in", place, batch, *(word for file in files for word in file.words()))
            queue.files += files
            self.count("swap_in")

    def make_known(self, place, queue):
        batch, files = self.free_batch(queue), []
        for _ in range(random.randrange(6)):
            queue.batches[batch] = files
            files.append(self.file(queue))
        queue.batches[batch] = files
        self.say("", "known", place, batch, len(files), sum(file.size for file in files))
        self.count("known")

    def ask(self, answer, name, place, *words):
        self.say(answer, name, place, *words)
        self.count(name)

    def make_best(self, place, queue):
        moment = self.moment(queue)
        self.ask(option_in_words(queue.best(moment)), "best", place, moment)

    def make_pick(self, place, queue):
        moment = self.moment(queue)
        rule = random.choice((("source",), ("one",), ("defragment",), ("defragment",),
                              ("bin", random.randrange(1, 6), random.randrange(1, 9)),
                              ("bin", random.randrange(1, 30), 100)))
        self.ask(list_in_words(queue.pick(moment, *rule)), "pick", place, moment, *rule)

    def make_expired(self, place, queue):
        moment = self.moment(queue)
        self.ask(list_in_words(queue.expired(moment)), "expired", place, moment)

    def make_out_batch(self, place, queue):
        self.ask(list_in_words(queue.out_batch()), "out_batch", place)

    def make_in_due(self, place, queue):
        self.ask(option_in_words(queue.in_due()), "in_due", place)

    def make_full(self, place, queue):
        self.ask(str(queue.full()).lower(), "full", place)

    def make_end(self, place, queue):
        moment = self.moment(queue)
        self.ask(option_in_words(queue.end(moment)), "end", place, moment)

    def make_len(self, place, queue):
        self.ask(str(len(queue.files)), "len", place)


def option_in_words(number):
    return "none" if number is None else str(number)


def list_in_words(numbers):
    return "none" if numbers is None else " ".join(["some", *map(str, numbers)])


# ---- the program

def link(source, target):
    """Libraries are large: another name of the file stands for a copy, on the same device."""
    try:
        os.link(source, target)
    except OSError:
        shutil.copy2(source, target)


def write_program(folder, edits=()):
    """A repository in which flow_queue is a program: its sources with a `main`, over the libraries below."""
    crates = folder / "crates"
    crates.mkdir()
    listed = ""
    for line in (ROOT / "crates.txt").read_text().splitlines():
        name = line.partition(":")[0]
        if name == "flow_queue":
            listed += f"{line} anyhow thiserror\n"
        elif name in BELOW:
            listed += f"{line}\n"
    (folder / "crates.txt").write_text(listed)
    shutil.copy(ROOT / "HANDLES", folder)
    for name in BELOW:
        shutil.copytree(ROOT / "crates" / name, crates / name, copy_function=link)
    own = crates / "flow_queue"
    for part in ("src", "specs", "proofs"):
        shutil.copytree(ROOT / "crates" / "flow_queue" / part, own / part)
    for name, old, new in edits:
        text = (own / name).read_text()
        if text.count(old) != 1:
            sys.exit(f"{name} doesn't have this text once: {old}")
        (own / name).write_text(text.replace(old, new))
    (own / "src" / "lib.rt").unlink()
    (own / "src" / "main.rt").write_text(MAIN)
    (own / "src" / "calls.rt").write_text(CALLS)
    return own


def answers_of(folder, lines, edits=()):
    """What the program answers; none if it stops at a call, as at one of a file that isn't there."""
    own = write_program(folder, edits)
    given = folder / "calls"
    given.write_text("".join(line + "\n" for line in lines))
    with given.open() as calls:
        ended = subprocess.run(["rt", "try", "--steps", str(STEPS), "--seconds", str(LONGEST), "--"], cwd=own,
                               stdin=calls, stdout=subprocess.PIPE, stderr=subprocess.PIPE, text=True, check=False)
    if "run=fault" in ended.stderr:
        return None
    if ended.returncode != 0:
        sys.exit(f"`rt try` ended with {ended.returncode}:\n{ended.stdout[-2_000:]}{ended.stderr[-4_000:]}")
    return ended.stdout.splitlines()


class Cases:
    def __init__(self, folder, caller):
        self.folder, self.caller = folder, caller

    def difference(self, edits=()):
        """The first wrong answer, if there is one, or that the program stops."""
        with new_folder(self.folder) as folder:
            answers = answers_of(folder, self.caller.lines, edits)
        if answers is None:
            return "it stops at a call"
        lines, wanted = self.caller.lines, self.caller.answers
        need(len(answers) == len(lines), f"{len(answers)} answers to {len(lines)} calls")
        return next((f"{line}: {answer}, and not {right}" for line, answer, right in zip(lines, answers, wanted)
                     if answer != right), None)

    def agree(self):
        wrong = self.difference()
        need(wrong is None, wrong)

    def differ(self, edits):
        wrong = self.difference(edits)
        need(wrong is not None, "every answer is the same")
        return wrong


def main():
    parser = options(__doc__.partition("\n")[0])
    parser.add_argument("--calls", type=int, default=2_000, help="how many calls are made (default: 2000)")
    parser.add_argument("--queues", type=int, default=64, help="of how many queues (default: 64)")
    parser.add_argument("--bent", action="store_true", help="also with mistakes in the sources")
    given, seed = parse_seeded(parser)
    caller = Caller(given.queues)
    while len(caller.lines) < given.calls + given.queues:
        caller.call()
    print(f"seed {seed}: " + ", ".join(f"{name} {count}" for name, count in caller.asked.items()))
    report, cases = Report(), Cases(given.folder, caller)
    report.case(f"{given.calls} calls of {given.queues} queues", cases.agree)
    for name, edits in BENT.items() if given.bent else ():
        report.case(f"it shows that {name}", cases.differ, edits)
    report.end()


if __name__ == "__main__":
    main()
