"""The cache: a fixed number of blocks, each with bytes of one log, by the age of their first byte."""
from dataclasses import dataclass, field

BLOCK = 4_096


@dataclass
class Block:
    log: str
    text: bytearray


@dataclass
class Cache:
    """The blocks that are in use, the oldest first. A log that is held has at most as many as its hold."""

    blocks: int
    used: list = field(default_factory=list)

    def own(self, log):
        return [block for block in self.used if block.log == log]

    def room(self, log, hold):
        """How many bytes a log may still add: what is missing in its last block, and the blocks that it may take."""
        own, free = self.own(log), self.blocks - len(self.used)
        missing = BLOCK - len(own[-1].text) if own else 0
        return missing + BLOCK * (free if hold is None else min(free, hold - len(own)))

    def append(self, log, text):
        """Adds bytes for which there is room: to the last block of the log, and then to new ones."""
        own = self.own(log)
        if own:
            missing = BLOCK - len(own[-1].text)
            own[-1].text += text[:missing]
            text = text[missing:]
        while text:
            self.used.append(Block(log, bytearray(text[:BLOCK])))
            text = text[BLOCK:]
        assert len(self.used) <= self.blocks

    def oldest(self):
        """The log of the oldest block, or None."""
        return self.used[0].log if self.used else None

    def take_first(self, log):
        """Frees the oldest block of a log, and returns its bytes."""
        block = self.own(log)[0]
        self.used = [it for it in self.used if it is not block]
        return bytes(block.text)
