"""A window of WebKitGTK: reads a line of JSON at a time, and answers each by one.

  webkit.py [PROXY]   PROXY is the URL of what all requests to a network go to

{"open": URL} is answered when the page is there, and {"run": EXPRESSION} with its value. It needs a
display, and the modules that /usr/bin/python3 has (Debian: python3-gi, gir1.2-webkit2-4.1).
"""
import json
import os
import sys

import gi

gi.require_version("Gtk", "3.0")
gi.require_version("WebKit2", "4.1")
from gi.repository import GLib, Gtk, WebKit2  # noqa: E402

# Its own standard output, which the processes that it starts don't have.
ANSWERS = os.fdopen(os.dup(1), "w")
os.dup2(2, 1)
RUN = "const value = await (%s); return JSON.stringify({ value: value ?? null });"


def answer(text):
    print(text, file=ANSWERS, flush=True)


def ran(view, result, _):
    try:
        answer(view.call_async_javascript_function_finish(result).to_string())
    except GLib.Error as error:
        answer(json.dumps({"error": error.message}))


def loaded(_, event):
    if event == WebKit2.LoadEvent.FINISHED:
        answer("{}")


def asked(channel, _, view):
    line = channel.readline()
    if not line:
        Gtk.main_quit()
        return False
    given = json.loads(line)
    if "open" in given:
        view.load_uri(given["open"])
    else:
        view.call_async_javascript_function(
            RUN % given["run"], -1, None, None, None, None, ran, None)
    return True


def main():
    context = WebKit2.WebContext.new_ephemeral()
    for url in sys.argv[1:]:
        proxy = WebKit2.NetworkProxySettings.new(url, None)
        context.get_website_data_manager().set_network_proxy_settings(
            WebKit2.NetworkProxyMode.CUSTOM, proxy)
    window, view = Gtk.Window(), WebKit2.WebView.new_with_context(context)
    window.add(view)
    window.set_default_size(1280, 800)
    window.show_all()
    view.connect("load-changed", loaded)
    GLib.io_add_watch(sys.stdin, GLib.IO_IN | GLib.IO_HUP, asked, view)
    Gtk.main()


if __name__ == "__main__":
    main()
