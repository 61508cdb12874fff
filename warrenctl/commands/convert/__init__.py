from warrenctl.commands.convert.command import main, words

__all__ = ["main", "words"]
