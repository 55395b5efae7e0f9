// Two lists side by side.

/** The rows of two lists, with as many rows as there can be that have the same in both. The others have something of one list, and null for the other. */
export function aligned(before, now) {
  // How many rows with the same there are at most from these two places on.
  const most = Array.from({ length: before.length + 1 }, () => new Array(now.length + 1).fill(0));
  for (let left = before.length - 1; left >= 0; left -= 1) {
    for (let right = now.length - 1; right >= 0; right -= 1) {
      most[left][right] = before[left] === now[right] ? most[left + 1][right + 1] + 1 : Math.max(most[left + 1][right], most[left][right + 1]);
    }
  }
  const rows = [];
  let left = 0, right = 0;
  while (left < before.length || right < now.length) {
    if (left < before.length && before[left] === now[right]) rows.push([before[left++], now[right++]]);
    else if (left < before.length && (right === now.length || most[left + 1][right] >= most[left][right + 1])) rows.push([before[left++], null]);
    else rows.push([null, now[right++]]);
  }
  return rows;
}
