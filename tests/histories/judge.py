"""What `jcache check` says of a record."""
import re
import subprocess

LINE = re.compile(r'^(\S+): (explained|not explained|gave up)\b', re.M)


class Judge:
    def __init__(self, program):
        self.program = program

    def verdicts(self, text, rules):
        """Of each key of a record `explained`, `not explained` or `gave up`."""
        options = ['--rules', 'store' if rules.store else 'table', '--order', 'real' if rules.real else 'program',
                   '--evict', 'free' if rules.evict else 'never']
        ran = subprocess.run([self.program, 'check', *options], input=text, stdout=subprocess.PIPE, stderr=subprocess.PIPE,
                             universal_newlines=True, timeout=600)
        if ran.returncode not in (0, 5, 6):
            raise SystemExit(f'{self.program} check {" ".join(options)} ends with status {ran.returncode}: {ran.stderr}{ran.stdout[-1000:]}')
        return dict(LINE.findall(ran.stdout))
