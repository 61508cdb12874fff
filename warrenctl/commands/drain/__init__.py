from warrenctl.commands.drain.command import main, words

__all__ = ["main", "words"]
