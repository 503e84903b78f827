"""What a cluster does in a session: its log grows, by files that are whole at once or grow in their place; and what is given up."""
import random

from worlds import HEADER, line, progress_name, segment, segment_name


class Cluster:
    """The log of a session, and its files."""

    def give_up(self, txid):
        """All above a TXID is given up: another log goes on there. What nobody was shown is taken away."""
        self.ever = self.ever_shown = self.most = txid
        self.sure = min(self.sure, txid)
        self.history += 1
        # What grew while the program was asked is another file than the one that was given up.
        shown = self.sent_shown if self.sent_looked >= min(then for _, then in self.sent) else {}
        given = dict(self.given_up)
        self.is_unsummed = True
        self.given_names = self.given_names | self.segments.files.keys()
        for name, file in list(self.segments.files.items()):
            if self.greatest({name: file.data}) > txid or name in self.growing:
                if shown.get(name) == file.data and not self.segments.sums_failed and not self.segments.is_hidden:
                    given[name] = file.data
                else:
                    self.segments.drop(name)
                    self.growing.pop(name, None)
        self.given_up = given
        self.growing = {}
        del self.log[txid:]
        self.is_spoiled = False

    def grow(self):
        """The log goes on by a segment: whole at once, or in its place, or torn at first. While it is given up it stands still."""
        if any(kind == "promote" and body["lost"] for kind, body, _ in self.asked.values()) or self.is_spoiled or self.growing:
            return
        first, count = len(self.log) + 1, self.random.randint(1, 6)
        paths = [f"/h{self.history}-{txid}" for txid in range(first + 1, first + count + 1)]
        if self.random.random() < 0.01:
            paths[-1], self.is_spoiled = None, True
        data = segment(first, paths)
        self.log += [None, *paths, None]
        name = segment_name(first, len(self.log))
        self.segments.drop(progress_name(first))
        if self.random.random() < 0.25:
            self.segments.put(name, data[: self.random.randint(0, len(data) - 1)])
            self.growing[name] = data
        else:
            self.segments.put(name, data)

    def ripen(self):
        """A file that grew in its place is whole."""
        for name, data in list(self.growing.items()):
            if self.trouble.is_on and self.random.random() < 0.5:
                self.segments.grow(name, data[: self.random.randint(0, len(data))])
            else:
                self.segments.grow(name, data)
                del self.growing[name]

    def begin_segment(self):
        """A segment in progress, of lines, binary or as a dump; and what has such a name and is none."""
        if self.growing or self.is_spoiled or any(kind == "promote" and body["lost"] for kind, body, _ in self.asked.values()):
            return
        first = len(self.log) + 1
        data, suffix = self.random.choice(
            [
                (b"", ""),
                (line("OP_START_LOG_SEGMENT", first).encode(), ""),
                (line("OP_START_LOG_SEGMENT", first).encode()[:-1], ""),
                (HEADER, ""),
                (HEADER + b"\xff" * 90, ""),
                (HEADER + b"\x18" + b"\x00" * 30, ""),
                (b"<EDITS><EDITS_VERSION>-63</EDITS_VERSION><RECORD>", ".xml"),
                (HEADER + b"\x18" + b"\x00" * 30, random.Random(first).choice([".empty", ".trash", ".corrupt", ".md5"])),
            ]
        )
        self.segments.put(progress_name(first, suffix), data)

    def end_segments(self):
        """What is in progress is gone: it was thrown away, or gets its name."""
        for name in [name for name in self.segments.files if "inprogress" in name]:
            self.segments.drop(name)

    def remove_newest(self):
        names = [name for name in self.segments.files if "inprogress" not in name]
        if names and max(names) not in self.growing:
            name = max(names)
            self.removed = (name, self.segments.files[name].data)
            self.segments.drop(name)

    def hang(self):
        if self.hung_since is None:
            self.hung_since, self.hung_paused, self.hung_late = self.now, 0.0, 0.0

    def go_on(self):
        if self.hung_since is not None and not self.is_killed:
            self.hung_since, self.hung_at = None, self.now
