from warrenctl.commands.split.command import main, words

__all__ = ["main", "words"]
