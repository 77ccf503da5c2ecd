// The name of a file as it is shown. Letters that can't be seen, or that turn round those behind them, are shown by their
// numbers, so that no name looks like another.

const UNSEEN = /[\p{Cc}\p{Zl}\p{Zp}\p{Bidi_Control}\u200b\ufeff]/gu;

export function shownName(name) {
  return name.replace(UNSEEN, (letter) => {
    const number = letter.codePointAt(0).toString(16).toUpperCase();
    return number.length <= 2 ? `\\x${number.padStart(2, '0')}` : `\\u${number.padStart(4, '0')}`;
  });
}
