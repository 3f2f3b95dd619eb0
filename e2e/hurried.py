"""What hurried people do at the desk in Chromium, for look-at-desk: stop a page, leave it, go back, bring too much."""
import contextlib
import os
import time

from browser import PATIENCE

FORM, BIG = "document.querySelector('#arrangement button')", "document.querySelector('#drop .big').textContent"


def hurry(page, base, folder, faults):
    """Each step takes a fraction of a second. The last one ends the visit."""
    stop(page, base, faults)
    go_back(page, base, faults)
    leave(page, base, faults)
    bring_too_much(page, base, folder, faults)


def stop(page, base, faults):
    page.go(f"{base}/candidates/1051")
    answer_after(page, 20_000)  # it is stopped before
    page.js(f"{FORM}.click(); new Promise((done) => setTimeout(done, 100))")
    page.call("Page.stopLoading")
    answer_after(page, 0)
    faults.expect(page.until(f"{FORM}.textContent + !{FORM}.ariaDisabled") == "See what would changetrue",
                  "a form that was stopped still works")


def answer_after(page, milliseconds):
    page.call("Network.emulateNetworkConditions", offline=False, latency=milliseconds, downloadThroughput=-1,
              uploadThroughput=-1)


def go_back(page, base, faults):
    """After a rehearsal the form is as it was left; once that is done, the page says what is so."""
    page.js("document.querySelector('#arrangement [name=extra]').select()")
    page.keys("7")
    page.js(f"{FORM}.click()")
    page.until("location.pathname.includes('/proposals/') && !!document.querySelector('.confirm .primary')")
    page.call("Emulation.setEmulatedMedia", media="print")
    faults.expect(page.js("getComputedStyle(document.querySelector('.card')).breakInside") == "auto",
                  "a long list of a rehearsal leaves the first sheet empty")
    page.call("Emulation.setEmulatedMedia", media="")
    page.js("history.back()")
    page.until("location.pathname.endsWith('/1051') && document.readyState === 'complete'")
    faults.expect(page.js("document.querySelector('#arrangement [name=extra]').value") == "7",
                  "the form is not as it was left")
    page.js("history.forward()")
    page.until("location.pathname.includes('/proposals/') && document.readyState === 'complete' && "
               "performance.getEntriesByType('navigation')[0].type !== 'navigate'")  # it is loaded anew
    page.js("document.querySelector('.confirm .primary').click()")
    page.until("!!document.querySelector('.tag.done')")
    page.js("history.go(-2)")
    page.until("location.pathname.endsWith('/1051') && document.readyState === 'complete'")
    page.until("document.querySelector('.figures').textContent.includes('7 % extra time')")


def leave(page, base, faults):
    """What was typed and is not sent is asked for; what was sent is not, nor a search: that would stop here."""
    page.go(f"{base}/candidates/1051")
    page.js("document.querySelector('[name=note]').focus()")
    page.keys("rest")
    faults.expect(asks(page) and page.js("document.querySelector('[name=note]').value") == "rest",
                  "a note that was typed is lost")
    page.js("document.querySelector('form[action$=note] button').click()")
    page.until("document.title.startsWith('done') && document.readyState === 'complete'"
               " && document.activeElement !== document.body")  # it has put the focus where it belongs
    page.js("document.querySelector('#find').focus()")
    page.keys("berg", "Enter")
    page.until("location.search === '?q=berg' || "
               "location.pathname.endsWith('/1051') && !document.title.startsWith('done')")


def asks(page):
    """Whether the browser asks who leaves the page by a link; they stay then."""
    asked = []

    def stay(event):
        if event["method"] == "Page.javascriptDialogOpening":
            asked.append(page.send("Page.handleJavaScriptDialog", accept=False))
        return event["method"].startswith("Page.javascriptDialog")
    page.watch = stay
    page.js("document.querySelector('nav a').click()")
    end = time.monotonic() + PATIENCE
    with contextlib.suppress(RuntimeError):  # a page that was left
        while not asked and time.monotonic() < end:
            page.js("new Promise((done) => setTimeout(done, 20))")
    page.watch = None
    return bool(asked)


def bring_too_much(page, base, folder, faults):
    page.go(f"{base}/files")
    path = os.path.join(folder, "large.csv")
    with open(path, "wb") as file:
        file.truncate(33 << 20)
    give(page, [path])
    faults.expect("larger than 32 MB" in page.until(BIG) and page.js("document.title").startswith("Files"),
                  f"of a file that is too large it says {page.js(BIG)}")
    os.truncate(path, 10)
    answer_after(page, 2000)
    give(page, [path])
    faults.expect(asks(page), "an upload is left without a question")
    answer_after(page, 0)
    page.until("location.pathname.includes('/uploaded/')")
    page.go(f"{base}/files")
    page.js("fetch(document.querySelector('.leave').action, {method: 'POST', body: new URLSearchParams("
            "new FormData(document.querySelector('.leave')))})")
    give(page, [path])
    page.until(f"{BIG}.includes('choose the files again')")
    page.complaints()


def look_back(page, faults):
    """Who is noted as absent is ticked, whatever was ticked on the page from before."""
    page.js("history.back()")
    page.until("document.readyState === 'complete' && document.title.startsWith('MON-AM')")
    ticked = page.js("[...document.querySelectorAll('#absent [name=absent]')].map((each) => each.checked).join()")
    faults.expect(ticked == "true,true", f"of two who are noted as absent the boxes are {ticked} after Back")


def give(page, files):
    root = page.call("DOM.getDocument")["root"]["nodeId"]
    node = page.call("DOM.querySelector", nodeId=root, selector="#files")["nodeId"]
    page.call("DOM.setFileInputFiles", files=files, nodeId=node)
