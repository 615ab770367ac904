/* The icons, from 1, and the line of a reply. */
export const ICONS = [
  "", "OffHook", "DialTone", "Dialling", "Ringback", "Ci", "Ansam", "CmJm", "Cj", "Training", "Connected", "carrier",
];

export const withLine = ([line, text]) => (line ? `${line} → ${text}` : text);
