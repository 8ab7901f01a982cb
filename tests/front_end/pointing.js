// Runs behind a page in a browser: points at each form and each span, presses keys, and writes what is wrong into `#result`.
const wrong = []
const expect = (what, wanted, got) => { if (wanted !== got) wrong.push(what + ': wanted ' + wanted + ', got ' + got) }
const litAt = () => all('.at').length
const press = key => document.body.dispatchEvent(new KeyboardEvent('keydown', {key, bubbles: true}))

// The keys of the address were `m,m`: one form is held, and one span is lit.
expect('forms at m,m', 1, all('.n.at').length)
expect('spans at m,m', 1, all('.r.on').length)

for (const it of all('.n', right).concat(all('.r', code))) {
  show(it, false)
  const number = rangeOf(it), name = it.className + ' ' + number
  expect('pointed at, ' + name, 1, litAt())
  if (it.matches('.n')) {
    const span = spans.get(number)
    expect('span of ' + name, true, number === undefined || span?.classList.contains('on'))
  } else {
    const lit = (forms.get(number) || []).filter(form => form.closest('.on'))
    expect('forms of ' + name, (forms.get(number) || []).length, lit.length)
  }
  expect('said of ' + name, true, say.textContent.length > 5)
  expect('uses at ' + name, new Set(usesOf(it)).size, all('.r.use', code).length)
}

press('Escape')
expect('after Escape', 0, all('.at, .on, .use').length)
press(']')
expect('a body at ]', 1, all('.n.at').length)
press('Tab')
expect('the other side at Tab', 1, all('.r.at').length)
press('ArrowRight')
expect('a span inside at the arrow', 1, all('.r.at').length)
press('d')
expect('a diagnostic at d', 1, all('.r.at.diag').length)
press('f')
press('F')
expect('all folded at F', all('section', right).length, all('section.shut', right).length)
press('F')
expect('none folded at F', 0, all('section.shut', right).length)
press('?')
expect('help at ?', true, one('#help').open)
one('#help').close()
one('#find').value = 'größe'
one('#find').dispatchEvent(new Event('input'))
expect('bodies behind a filter', 1, all('section:not(.hide)', right).length)

const result = document.createElement('pre')
result.id = 'result'
const count = 'pointed at ' + all('.n', right).length + ' forms and ' + all('.r', code).length + ' spans'
result.textContent = [count, ...(wrong.length ? wrong : ['all is well'])].join('\n')
document.body.append(result)
