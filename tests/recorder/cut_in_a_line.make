import contextlib
import io

from changed import show

text = io.StringIO()
with contextlib.redirect_stdout(text):
    show()
print(text.getvalue()[:-20], end='')
