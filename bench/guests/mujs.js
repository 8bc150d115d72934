// Primes, a sort of records, texts and a search by patterns.
function primes(below) {
    var found = [], composite = [];
    for (var n = 2; n < below; n++) {
        if (composite[n])
            continue;
        found.push(n);
        for (var m = n * n; m < below; m += n)
            composite[m] = true;
    }
    return found;
}

function shuffled(count) {
    var people = [], seed = 12345;
    for (var i = 0; i < count; i++) {
        seed = (seed * 3877 + 29573) % 139968;
        people.push({ name: "p" + seed % 97, age: seed % 80 });
    }
    return people;
}

var found = primes(1000);
print("primes", found.length, found[found.length - 1]);

var people = shuffled(150);
people.sort(function (a, b) { return a.age - b.age || (a.name < b.name ? -1 : a.name > b.name ? 1 : 0); });
print("youngest", people[0].name, people[0].age);
print("oldest", people[149].name, people[149].age);

var words = {}, text = "";
for (var i = 0; i < 100; i++)
    text += (i % 3 ? "the quick " : "brown fox ") + i % 11 + " ";
text.split(" ").forEach(function (word) { words[word] = (words[word] || 0) + 1; });
print("words", Object.keys(words).sort().join(","));
print("the", words.the, "digits", text.match(/[0-9]+/g).length);
print("json", JSON.stringify(people.slice(0, 3)));
