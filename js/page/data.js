// What the page has in itself beside its script: the scores to choose, by their names, and the table of helps.

export const { examples: EXAMPLES, helps: HELPS } = JSON.parse(document.getElementById("data").textContent);
