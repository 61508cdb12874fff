from warrenctl.commands.fill.command import main, words

__all__ = ["main", "words"]
