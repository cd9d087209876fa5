#!/usr/bin/env python3
"""Loads the page in Chromium, clicks twice, and looks for the line and the steps of the route.

    examples/two_clicks.py URL [PICTURE]     chromedriver (Debian: chromium-driver) on the path

It speaks to chromedriver by the WebDriver protocol (https://www.w3.org/TR/webdriver2/)."""
import base64
import json
import subprocess
import sys
import time
import urllib.request

PORT = 9515


def call(method, path, body=None):
    data = None if body is None else json.dumps(body).encode()
    request = urllib.request.Request(f"http://127.0.0.1:{PORT}{path}", data, {"Content-Type": "application/json"}, method=method)
    with urllib.request.urlopen(request, timeout=60) as it:
        return json.load(it)["value"]


def until(found, what):
    """What is found in ten seconds, or the end."""
    for _ in range(100):
        try:
            seen = found()
        except OSError:
            seen = None
        if seen:
            return seen
        time.sleep(0.1)
    sys.exit(f"two_clicks: {what} did not come")


def main():
    url, picture = sys.argv[1], sys.argv[2:]
    driver = subprocess.Popen(["chromedriver", f"--port={PORT}"], stdout=subprocess.DEVNULL)
    words = ["--headless=new", "--no-sandbox", "--disable-gpu", "--window-size=1200,800"]
    session = ""
    try:
        until(lambda: call("GET", "/status")["ready"], "chromedriver")
        asked = {"capabilities": {"alwaysMatch": {"browserName": "chrome", "goog:chromeOptions": {"args": words}}}}
        session = f"/session/{call('POST', '/session', asked)['sessionId']}"

        def run(script):
            return call("POST", f"{session}/execute/sync", {"script": f"return {script}", "args": []})

        def click(x, y):
            moves = [{"type": "pointerMove", "duration": 0, "x": x, "y": y}, {"type": "pointerDown", "button": 0}, {"type": "pointerUp", "button": 0}]
            mouse = {"type": "pointer", "id": "mouse", "parameters": {"pointerType": "mouse"}, "actions": moves}
            call("POST", f"{session}/actions", {"actions": [mouse]})

        call("POST", f"{session}/url", {"url": url})
        until(lambda: run("typeof map === 'object'"), "the page")
        click(250, 250)
        until(lambda: run("document.querySelectorAll('.leaflet-marker-icon').length === 1"), "the first place")
        time.sleep(0.5)
        click(600, 500)
        until(lambda: run("document.querySelectorAll('#map path').length"), "the line")
        steps = until(lambda: run("[...document.querySelectorAll('#steps li')].map((it) => it.textContent)"), "the steps")
        told = run("document.getElementById('sum').textContent")
        if not (steps[0].startswith("Depart") and steps[-1] == "Arrive" and " km, " in told):
            sys.exit(f"two_clicks: the page tells {told} and {steps}")
        print(f"two_clicks: {told}; {len(steps)} steps: {'; '.join(steps)}")
        # until the map stands still
        time.sleep(1)
        if picture:
            with open(picture[0], "wb") as it:
                it.write(base64.b64decode(call("GET", f"{session}/screenshot")))
    finally:
        if session:
            call("DELETE", session)
        driver.terminate()
        driver.wait()


if __name__ == "__main__":
    main()
