from warrenctl.commands.user.command import main, words

__all__ = ["main", "words"]
