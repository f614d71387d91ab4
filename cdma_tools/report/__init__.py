"""One page that shows a recording.

| Module | Does |
|---|---|
| `meaning` | what the fields of messages mean, in words and units |
| `gathering` | runs the import and the program, and keeps what they wrote |
| `measures` | level, pilot, carrier, clock, correlation and constellation of a sample file |
| `figures` | the plots |
| `document` | the contents of the page: its sections, their tables and texts |
| `rendering` | makes HTML of them, with the page's policy and its scripts |

`templates/` has the page's markup. `page.css` and `page.js` are its style and what it does in the browser.
"""
