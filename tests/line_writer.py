"""What the models of scripts share: lines and the replies to them, written and counted."""


class LineWriter:
    """Writes lines and the replies to them. Each line but the comments has exactly one reply."""

    def __init__(self, lines, replies, comment=0):
        self.lines = lines
        self.replies = replies
        # How long the comment behind each line is, or 0 for none.
        self.comment = comment
        self.count = 0
        self.size = 0
        self.replied = 0
        self.reply_size = 0

    def put(self, line, reply):
        self.lines.write(line + "\n")
        self.replies.write(reply + "\n")
        self.count += 1
        self.size += len(line) + 1
        self.replied += 1
        self.reply_size += len(reply) + 1
        if self.comment:
            self.lines.write("#" * self.comment + "\n")
            self.count += 1
            self.size += self.comment + 1
