from warrenctl.commands.report.command import main, words

__all__ = ["main", "words"]
