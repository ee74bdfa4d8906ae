// The last part of a page that was made beforehand: it has what np answered.

show(JSON.parse(document.getElementById('data').textContent));
