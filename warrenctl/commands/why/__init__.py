from warrenctl.commands.why.command import main, words

__all__ = ["main", "words"]
