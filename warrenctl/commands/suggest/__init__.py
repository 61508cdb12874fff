from warrenctl.commands.suggest.command import main, words

__all__ = ["main", "words"]
