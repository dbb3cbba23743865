"""Stored journals with each kind of request that may change a broker, and the images of what they lead to, by their CRC-32C.

A journal is made by the encoders of the tests, with a head of each version, and the images by the plain model of
tests/models/broker.py; the crcs of both stand here, so that neither changes unseen. Where the program comes to other images, the meaning
of requests has changed, and the number of the meaning in a journal's head has to rise with it.
"""
import struct

from cases.kept_runs import JOURNAL, Kept, content, has_state, lay, new_folder, recovered
from cases.started import request, same
from encoders.batches import crc32c
from models import kept_files

TOPICS = ("t:3", "u:2")
# rounds of a leader's requests
OF_A_LEADER = [
    ["producer-id", "producer-id id=x"],
    ["produce t:0 batch a=1 b=2 c=null d=;header:h=1;header:i=null"],
    ["produce t:0 batch time:1000 maxtime:2000 e=5;time:5 f=6;time:1000"],
    ["produce t:0 batch producer:0 epoch:0 sequence:0 a=3", "produce t:0 batch producer:0 epoch:0 sequence:0 a=3"],
    ["produce t:0 batch producer:0 epoch:0 sequence:1 b=null g=7", "produce t:0 batch producer:0 epoch:0 sequence:9 a=4"],
    ["produce t:0 batch producer:0 epoch:1 sequence:0 h=8", "produce t:0 batch producer:0 epoch:0 sequence:3 h=9"],
    ["produce acks=0 t:1 each 3 batch x=#", "produce acks=0 t:1 batch x=3", "produce acks=2 t:1 batch x=4"],
    ["produce id=t t:1 batch x=5"],
    ["produce t:1 batch y=1 | u:0 batch z=1 | v:0 batch w=1 | u:2 batch w=1 | __consumer_offsets:0 batch w=1"],
    ["produce t:1 batch crc:1 y=2", "produce t:1 batch null=1", "produce t:1 batch last:4 y=3", "produce t:1 null"],
    ["commit group=g t:0 1 m", "commit group=g t:1 7 null | u:0 3 | v:0 1", "commit group=h t:0 9"],
    ["commit generation=4 t:0 9", "commit group= t:0 9", "commit t:0 -1", "commit t:2 5 {m*4096}", "commit t:2 6 {m*4097}"],
    ["clean t:0 6 0", "clean t:0 9 9", "clean v:0 1 1", "clean t:1 0 0", "clean t:1 99 99"],
    ["import u:1 image 0-3 batch base:0 a=1 b=2 + batch base:3 c=3", "import u:1 image 0-3 batch base:0 a=1 b=2"],
    ["import t:2 image start:5 5-9 batch base:6 last:2 k=1 l=2;delta:2", "import t:2 image 0-1 batch base:0 a=1"],
    ["import t:0 image none"],
    ["import-delta t:0 delta none none", "deliver t:0 batch base:0 a=1"],
    ["forget g", "forget nobody", "forget "],
    ["trim t:0 1", "trim t:0 4", "trim t:0 99", "trim t:0 1", "trim v:0 0"],
    ["clean __consumer_offsets:0 99 99", "commit group=g t:0 2", "producer-id"],
]
# rounds of a follower's requests
OF_A_FOLLOWER = [
    ["deliver t:0 batch base:5 a=1 b=2", "deliver t:0 batch base:0 c=1", "deliver t:0 batch base:0 c=1"],
    ["deliver t:0 batch base:6 d=1", "deliver t:0 batch base:-1 d=1", "deliver t:0 batch null=1", "deliver t:3 batch d=1"],
    ["import t:0 image 0-9 batch base:0 c=1 + batch base:9 e=1", "import t:0 image 0-9 batch base:0 c=2"],
    ["import t:1 image version:0 0-3 batch base:0 a=1 b=2", "import t:1 image 2-9 batch base:4 a=1 b=2 + batch base:6 c=3"],
    ["import u:0 image start:2 2-3,9-9 batch base:2 a=1 b=2", "import u:0 image none", "import u:0 cut 20 image none"],
    ["import-delta u:1 delta 0-3 none batch base:0 a=1 b=2 + batch base:2 a=3 b=null"],
    ["import-delta u:1 delta 0-3 0-3 list 0 1", "import-delta u:1 delta 0-9 8-9 list 8", "import-delta u:1 delta start:3 3-5 none"],
    ["deliver t:2 batch base:0 producer:4 epoch:0 sequence:0 a=1", "deliver t:2 batch base:1 producer:4 epoch:0 sequence:1 a=2"],
    ["clean t:2 2 2", "clean t:0 20 20", "trim t:2 1", "trim t:2 7"],
    ["deliver __consumer_offsets:0 positions base:0 g/t/0=5/m g/t/1=6", "deliver __consumer_offsets:0 positions base:2 g/t/0=null"],
    ["producer-id", "commit t:0 4", "forget g", "produce t:0 batch a=1"],
]
# the crcs of the images of t:0, t:1, t:2, u:0, u:1 and the groups' partition
LEADERS_IMAGES = [0xE5A722F3, 0x0C66FB89, 0x803F08A9, 0x92818A1F, 0x99583B46, 0x1CC6974E]
FOLLOWERS_IMAGES = [0xAE846540, 0x8C58785D, 0xE28A528F, 0xBDDBB674, 0xBBA56923, 0xA7CCC0DE]
# of each the rounds, whether it leads, the version of its files, the crc of its journal, and those of the images
STORED = [
    ("a leader's journal", OF_A_LEADER, True, 1, 0x0B61E76A, LEADERS_IMAGES),
    ("a leader's journal", OF_A_LEADER, True, 0, 0x5EC18896, LEADERS_IMAGES),
    ("a follower's journal", OF_A_FOLLOWER, False, 1, 0x4287FC05, FOLLOWERS_IMAGES),
    ("a follower's journal", OF_A_FOLLOWER, False, 0, 0x1C2C0D15, FOLLOWERS_IMAGES),
]


def rounds_of(words):
    return [[request(it) for it in round_] for round_ in words]


def known_keys(frames):
    return {struct.unpack(">h", it[4:6])[0] for it in frames}


def crcs_of(node):
    """The crc of each partition's image, but for its last four bytes, which are a crc."""
    return [crc32c(copy.image()[:-4]) for them in node.topics.values() for copy in them]


def stored(program):
    """Each journal must be the stored one, and lead to the images that are stored."""
    names, met = kept_files.topics_of(TOPICS), set()
    for what, words, leads, version, crc, images in STORED:
        what, rounds = f"{what} of version {version}", rounds_of(words)
        frames = [it for round_ in rounds for it in round_]
        journal, node = kept_files.journal(rounds, version=version), kept_files.node_after(frames, names, leads, 7)
        met |= known_keys(frames)
        same(f"the crc of {what}", crc32c(journal), crc)
        same(f"the crcs of the model's images behind {what}", crcs_of(node), images)
        with new_folder() as folder:
            lay(folder, journal, TOPICS, role=int(not leads), first=7, version=version)
            role = "leader" if leads else "follower"
            with Kept(program, folder, "--role", role, "--first-producer", "7", topics=TOPICS) as broker:
                same(f"the line of {what}", broker.said(), recovered(len(frames)))
                has_state(broker, node, what)
                code, following = (0, node.next_producer) if leads else (6, -1)
                with broker.client() as client:
                    client.ask("producer-id", f"producer {code} {following} {0 if leads else -1}")
            same(f"{what} behind the start", content(folder, JOURNAL)[: len(journal)], journal)
    same("the kinds of requests that may change a broker", met, kept_files.CHANGING)


CASES = [("stored journals with each kind of changing request", stored)]
