from warrenctl.commands.reload.command import main, words

__all__ = ["main", "words"]
