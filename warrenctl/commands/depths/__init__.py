from warrenctl.commands.depths.command import main, words

__all__ = ["main", "words"]
