from warrenctl.commands.metrics.command import main, words

__all__ = ["main", "words"]
