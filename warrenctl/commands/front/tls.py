"""TLS before the clients: a certificate that is renewed is read at the next handshake, without a restart."""

import os
import ssl


class Certificate:
    """A chain of certificates and its key. `context` is what a server takes; `note` takes a line if the files can't be read later."""

    def __init__(self, certificate, key, note):
        self._files, self._note, self._said = (certificate, key or certificate), note, ""
        self._seen = self._stamps()
        self._current = self.context = self._read()
        self.context.sni_callback = self._choose

    def _stamps(self):
        found = [os.stat(it) for it in self._files]
        return [(it.st_ctime_ns, it.st_size, it.st_ino) for it in found]

    def _read(self):
        context = ssl.SSLContext(ssl.PROTOCOL_TLS_SERVER)
        context.minimum_version = ssl.TLSVersion.TLSv1_2
        context.load_cert_chain(*self._files)
        return context

    def _look(self):
        """Reads the files if they have changed. While they can't be read, or the key is not that of the certificate, what was read before holds."""
        try:
            stamps = self._stamps()
            if stamps != self._seen:
                self._seen = stamps
                self._current = self._read()
                self._tell("read again")
        except OSError as error:
            self._tell(f"{getattr(error, 'reason', None) or error.strerror}; what was read before holds")

    def _tell(self, what):
        if what != self._said:
            self._note(f"{self._files[0]}: {what}")
        self._said = what

    def _choose(self, connection, *_):
        """Called at each handshake, whether or not the client names a server."""
        self._look()
        connection.context = self._current
