"""What a browser shows of the page of liq-try: the runs of tests/try in chromium."""
import os
import shutil
import subprocess
import threading
import time

from lib.chromium import CONTRAST
from lib.common import content
from lib.try_page import LIVE, SET, STATION
from lib.try_server import FRIDAY

TEXTS = "h1,h2,h3,p,label,button,#script .row,#script .say,.legend span,#holes li,#found li,#clocks li,.told,.strip b"
LEAST = CONTRAST.replace("TEXTS", TEXTS)
HEARD = "const a = document.querySelector('audio'); return a ? [!a.paused, a.currentTime, a.getAttribute('src'), a.readyState] : [false, 0, '', 0]"


def wait(browser, script, seconds=10):
    """What a script answers, once that is true; or at last."""
    for _ in range(int(seconds * 10)):
        found = browser.run(script)
        if found:
            return found
        time.sleep(0.1)
    return found


def opened(page, browser, file="station.liq", width=1280, **look):
    """Starts a page and opens it."""
    state = page.start(file)
    browser.look(width, **look)
    browser.call("POST", browser.session + "/url", {"url": page.address})
    wait(browser, f"return document.querySelectorAll('#script .row').length === {len(state['lines'])}")
    wait(browser, "return document.querySelector('#picture img').complete && !document.querySelector('#pictured').hidden")
    return state


def enter(browser):
    """The key that activates what has the focus."""
    for kind, more in (("keyDown", {"text": "\r"}), ("keyUp", {})):
        browser.command("Input.dispatchKeyEvent", type=kind, key="Enter", code="Enter", windowsVirtualKeyCode=13, **more)


def looks(page, browser):
    """At both widths, light and dark: nothing is wider than the window, text has contrast, and the console has no
    complaint."""
    opened(page, browser)
    browser.run("document.getElementById('play').click()")
    wait(browser, "return document.querySelectorAll('.strip').length === 1")
    for width in (1280, 390):
        for dark in (False, True):
            browser.look(width, dark=dark)
            time.sleep(0.3)
            whole, window = browser.run("return [document.documentElement.scrollWidth, innerWidth]")
            ratio, where = browser.run(LEAST)
            if whole > window:
                yield f"{width} wide: {whole} are wanted"
            if ratio < 4.5:
                yield f"{width} wide, {'dark' if dark else 'light'}: contrast {ratio:.1f} at {where}"
    yield from browser.complaints()


def the_verdict_changes_with_the_file(page, browser):
    """A mistake has its mark, its help and its line; the page says so without a call."""
    opened(page, browser)
    verdict = browser.run("return document.getElementById('verdict').textContent")
    page.write("station.liq", STATION.replace("fallback", "fallbak"))
    wait(browser, "return document.getElementById('verdict').className === 'bad'")
    seen = browser.run("const m = document.querySelector('mark.fault'); return [m.textContent, [...document.querySelectorAll('#script .row')].indexOf("
                       "m.closest('.row')), document.querySelector('.told').textContent, document.getElementById('play').disabled]")
    if "never without something to play" not in verdict or seen[:2] != ["fallbak", 4] or "do you mean `fallback`?" not in seen[2] or not seen[3]:
        yield f"{verdict}, {seen}"
    page.write("station.liq", STATION)
    if not wait(browser, "return document.getElementById('verdict').className === 'good'"):
        yield "it does not come back"
    yield from browser.complaints()


def a_click_plays_that_moment(page, browser):
    """A click on Friday 20:00 in the calendar plays it: the samples are those of `liq render --start=5:20:00:00`."""
    opened(page, browser)
    x, y = browser.run("const c = document.getElementById('calendar'); c.scrollIntoView({block: 'center'}); "
                       "const r = c.getBoundingClientRect(); return [r.left + r.width * 20 / 24, r.top + 4 * 29 + 13]")
    browser.move(x, y)
    under = browser.run("return document.getElementById('under').textContent")
    browser.click(x, y)
    for _ in range(100):
        plays = browser.run(HEARD)
        if plays[0] and plays[1] > 0:
            break
        time.sleep(0.1)
    clock = browser.run("return [document.getElementById('day').value, document.getElementById('clock').value]")
    if not plays[0] or clock != ["4", "20:00:00"] or under != "Friday 20:00:00: news.wav":
        yield f"it plays {plays}, at {clock}, {under!r}"
    if not plays[2]:
        return
    heard = page.ask(plays[2].split("/", 2)[2])[2]
    subprocess.run([page.program, "render", "station.liq", "1500", "--start=5:20:00:00"], cwd=page.folder, check=True, capture_output=True)
    if heard != content(os.path.join(page.folder, "radio.wav")):
        yield "other samples"
    blocks = browser.run("return [...document.querySelectorAll('.strip i')].slice(0, 2).map(i => i.title)")
    if blocks != ["Friday 20:00:00 news.wav", "Friday 20:00:09 news.wav"]:
        yield f"the tracks are {blocks}"
    yield from browser.complaints()


def keyboard_alone(page, browser):
    """By keys: to the calendar, an hour on, a day back, and play; then the next track and the next change."""
    opened(page, browser)
    for _ in range(40):
        browser.press("Tab")
        if browser.run("return document.activeElement.id") == "calendar":
            break
    browser.press("End", "Home", "ArrowRight", "ArrowUp")
    text = browser.run("return document.getElementById('calendar').getAttribute('aria-valuetext')")
    if text != "Thursday 00:05:00: no case holds":
        yield f"the keys lead to {text!r}"
    enter(browser)
    if not wait(browser, "return document.getElementById('heard').textContent.startsWith('Thursday 00:05:00, rendered')"):
        yield browser.run("return document.getElementById('heard').textContent")
    browser.run("document.getElementById('change').focus()")
    enter(browser)
    if not wait(browser, "return document.getElementById('heard').textContent.startsWith('Thursday 06:00:00, rendered')"):
        yield "the next change is " + browser.run("return document.getElementById('heard').textContent")
    browser.run("document.getElementById('track').focus()")
    enter(browser)
    time.sleep(0.5)
    if browser.run("return document.getElementById('clock').value") != "06:00:09":
        yield "the next track is at " + browser.run("return document.getElementById('clock').value")
    browser.run("document.getElementById('dayon').focus()")
    enter(browser)
    if not wait(browser, "return document.getElementById('heard').textContent.startsWith('Friday 06:00:09, rendered')"):
        yield "a day on is " + browser.run("return document.getElementById('heard').textContent")


def the_picture_marks_its_call(page, browser):
    """A click on a source of the picture marks the line of its call."""
    opened(page, browser)
    x, y = browser.run("const b = document.querySelector('#boxes button[title=\"source 1, line 3\"]'); b.scrollIntoView({block: 'center'}); "
                       "const r = b.getBoundingClientRect(); return [r.left + r.width / 2, r.top + r.height / 2]")
    browser.click(x, y)
    found = browser.run("return [...document.querySelectorAll('#script .row')].findIndex(r => r.classList.contains('shown'))")
    if found != 2:
        yield f"row {found} is marked"


def names_bring_nothing(page, browser):
    """Hostile names in the script, in a list and of an output come as text, and run nothing."""
    odd = "<img src=x onerror=document.title=1>.wav"
    shutil.copy(os.path.join(page.folder, "one.wav"), os.path.join(page.folder, odd))
    page.write("music.m3u", odd + "\n</script><script>document.title=2</script>.wav\n")
    page.write("<b>s.liq", SET + f'# <script>document.title=3</script> \u202e\n# <svg onload=document.title=4>\na = single("{odd}")\n'
               'output.file(%wav, "</h3><b>o.wav", mksafe(switch([({0h-24h}, playlist("music.m3u")), ({true}, a)])))\n')
    opened(page, browser, "<b>s.liq")
    browser.run("document.getElementById('play').click()")
    wait(browser, "return document.querySelectorAll('.strip').length === 1")
    seen = browser.run("return [document.querySelectorAll('img').length, document.querySelectorAll('script').length, document.title, "
                       "document.querySelector('h1').textContent, document.querySelector('.strip i').title.split(' ').slice(2).join(' '), "
                       "document.querySelector('.output h3').textContent, document.querySelectorAll('#script .row')[1].textContent]")
    wanted = [1, 1, "<b>s.liq: taken: never without something to play", "<b>s.liq", odd, "</h3><b>o.wav", "# <script>document.title=3</script> \u2039202E\u203a"]
    yield from (f"{found!r}, wanted {want!r}" for found, want in zip(seen, wanted) if found != want)
    yield from browser.complaints()


def a_live_script(page, browser):
    """A script of Liquidsoap: what is lost is said behind its line, and a click on its calendar plays it."""
    page.write("live.liq", LIVE)
    opened(page, browser, "live.liq")
    seen = browser.run("const r = [...document.querySelectorAll('#script .row')]; return [r.map(x => x.classList.contains('less')), "
                       "r[1].nextElementSibling.className, document.getElementById('verdict').textContent]")
    if [k + 1 for k, is_less in enumerate(seen[0]) if is_less] != [2, 6] or seen[1] != "say less" or "Liquidsoap" not in seen[2]:
        yield f"it shows {seen}"
    x, y = browser.run("const c = document.getElementById('calendar'); c.scrollIntoView({block: 'center'}); "
                       "const r = c.getBoundingClientRect(); return [r.left + r.width * 23 / 24, r.top + 4 * 29 + 13]")
    browser.click(x, y)
    wait(browser, "return document.querySelectorAll('.strip').length === 1")
    if browser.run("return document.querySelector('.strip i').title") != "Friday 23:00:00 jingle.wav":
        yield "it plays " + browser.run("return document.getElementById('heard').textContent")
    yield from browser.complaints()


def two_pages_at_once(page, browser):
    """A moment that another page asks for ends the one before, and this page says so."""
    page.write("music.m3u", "one.wav\ntwo.wav\n" * 400)
    page.write("station.liq", SET.replace("8000", "48000") + "".join(
        f'output.file(%wav, "o{k}.wav", mksafe(crossfade(duration=2., playlist("music.m3u"))))\n' for k in range(12)))
    opened(page, browser)
    browser.run("document.getElementById('long').value = 900; document.getElementById('play').click()")
    time.sleep(0.5)
    other = threading.Thread(target=lambda: page.told(f"hear?at={FRIDAY}&for=1"))
    other.start()
    if not wait(browser, "return document.getElementById('heard').textContent === 'ended by a later call of another page'"):
        yield browser.run("return document.getElementById('heard').textContent")
    other.join()
    browser.run("document.getElementById('long').value = 30; document.getElementById('play').click()")
    if not wait(browser, "return document.querySelectorAll('audio').length === 12", 30):
        yield "it plays nothing behind that"


def the_server_is_killed(page, browser):
    """The page says that its server has ended."""
    opened(page, browser)
    page.ended()
    if not wait(browser, "return document.getElementById('took').textContent === 'liq-try has ended'"):
        yield browser.run("return document.getElementById('took').textContent")
    browser.complaints()


RUNS = (looks, the_verdict_changes_with_the_file, a_click_plays_that_moment, keyboard_alone, the_picture_marks_its_call,
        names_bring_nothing, a_live_script, two_pages_at_once, the_server_is_killed)
