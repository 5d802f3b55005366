"""Headless Chromium over WebDriver, with nothing but Python's own library."""
import http.client
import json
import os
import shutil
import socket
import subprocess
import time

PACKAGES = ['chromium', 'chromium-driver', 'fonts-noto-cjk']
ELEMENT = 'element-6066-11e4-a52e-4f735466cecf'


def installed():
    """Whether Chromium and its driver are here, or could be installed."""
    have = lambda: shutil.which('chromium') and shutil.which('chromedriver')
    if have():
        return True
    if os.geteuid() != 0 or not shutil.which('apt-get'):
        return False
    try:
        install()
    except (OSError, subprocess.SubprocessError):
        return False
    return bool(have())


def install():
    quiet = {'stdout': subprocess.DEVNULL, 'stderr': subprocess.DEVNULL, 'stdin': subprocess.DEVNULL, 'env': {**os.environ, 'DEBIAN_FRONTEND': 'noninteractive'}}
    for words in [['update'], ['install', '-y', '--no-install-recommends', *PACKAGES]]:
        subprocess.run(['apt-get', '-o', 'Acquire::Retries=1', '-o', 'Acquire::http::Timeout=20', *words], **quiet, timeout=300, check=True)


def free_port():
    with socket.socket() as s:
        s.bind(('127.0.0.1', 0))
        return s.getsockname()[1]


class Browser:
    """One session. Downloads go into a folder; what the console says and what is asked for is kept."""

    def __init__(self, downloads, profile):
        self.port = free_port()
        self.driver = subprocess.Popen(['chromedriver', f'--port={self.port}', '--log-level=OFF'], stdout=subprocess.DEVNULL, stderr=subprocess.DEVNULL)
        try:
            self.wait_for(self.is_up, 20, 'chromedriver does not start')
            answer = self.send('POST', '/session', {'capabilities': {'alwaysMatch': self.capabilities(downloads, profile)}})
            self.session = f"/session/{answer['sessionId']}"
        except BaseException:
            self.driver.kill()
            raise

    @staticmethod
    def capabilities(downloads, profile):
        words = ['--headless=new', '--no-sandbox', '--disable-gpu', '--disable-dev-shm-usage', '--no-first-run', '--lang=en-US', '--window-size=1280,900', f'--user-data-dir={profile}']
        prefs = {'download.default_directory': downloads, 'download.prompt_for_download': False, 'intl.accept_languages': 'en-US'}
        return {
            'browserName': 'chrome',
            'goog:chromeOptions': {'binary': shutil.which('chromium'), 'args': words, 'prefs': prefs},
            'goog:loggingPrefs': {'browser': 'ALL', 'performance': 'ALL'},
        }

    def is_up(self):
        try:
            return self.send('GET', '/status')['ready']
        except OSError:
            return False

    @staticmethod
    def wait_for(test, seconds, words):
        end = time.monotonic() + seconds
        while not test():
            if time.monotonic() > end:
                raise AssertionError(words)
            time.sleep(0.02)

    def send(self, method, path, body=None):
        connection = http.client.HTTPConnection('127.0.0.1', self.port, timeout=60)
        connection.request(method, path, None if body is None else json.dumps(body), {'Content-Type': 'application/json'})
        value = json.loads(connection.getresponse().read())['value']
        connection.close()
        if isinstance(value, dict) and 'error' in value:
            raise AssertionError(f"{path}: {value['error']}: {value['message'].splitlines()[0]}")
        return value

    def post(self, path, **body):
        return self.send('POST', self.session + path, body)

    def go(self, url):
        self.post('/url', url=url)
        self.wait_for(lambda: self.run("return document.body.dataset.ready === 'yes'"), 20, f'{url} does not come up')

    def run(self, script, *args):
        return self.post('/execute/sync', script=script, args=list(args))

    def find(self, css):
        return self.post('/element', using='css selector', value=css)[ELEMENT]

    def click(self, css):
        self.post(f'/element/{self.find(css)}/click')

    def type(self, css, text):
        self.post(f'/element/{self.find(css)}/value', text=text)

    def press(self, *keys):
        """Keys go to what has the focus."""
        downs = [{'type': kind, 'value': key} for key in keys for kind in ('keyDown', 'keyUp')]
        self.post('/actions', actions=[{'type': 'key', 'id': 'keyboard', 'actions': downs}])

    def text(self, css):
        return self.run('return document.querySelector(arguments[0]).innerText', css)

    def log(self, kind):
        return self.post('/se/log', type=kind)

    def cdp(self, name, **given):
        return self.post('/goog/cdp/execute', cmd=name, params=given)

    def quit(self):
        try:
            self.send('DELETE', self.session)
        finally:
            self.driver.terminate()
            self.driver.wait(10)
