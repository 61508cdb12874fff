from warrenctl.commands.front.command import main, words

__all__ = ["main", "words"]
