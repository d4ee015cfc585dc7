//! A formula as DIMACS text, from the words that the library wrote.

/// The header, then a line a clause: its literals and 0, with single spaces. Each clause ends with its word 0.
pub fn text(variables: usize, clauses: u64, words: &[i32]) -> Vec<u8> {
    let mut text = format!("p cnf {variables} {clauses}\n").into_bytes();
    // The largest formula has millions of words, each of seven bytes at most: a sign, five digits and what follows.
    text.reserve(7 * words.len());
    for &word in words {
        if word < 0 {
            text.push(b'-');
        }
        push_digits(&mut text, word.unsigned_abs());
        text.push(if word == 0 { b'\n' } else { b' ' });
    }
    text
}

fn push_digits(text: &mut Vec<u8>, number: u32) {
    const MOST: usize = 10;
    let mut digits = [0; MOST];
    let mut first = MOST;
    let mut rest = number;
    loop {
        first -= 1;
        digits[first] = b'0' + (rest % 10) as u8;
        rest /= 10;
        if rest == 0 {
            break;
        }
    }
    text.extend_from_slice(&digits[first..]);
}

#[cfg(test)]
mod tests {
    use super::*;

    #[test]
    fn a_line_a_clause() {
        let words = [1, -2, 0, 0, -33792, 0];
        assert_eq!(text(4, 3, &words), b"p cnf 4 3\n1 -2 0\n0\n-33792 0\n");
        assert_eq!(text(0, 0, &[]), b"p cnf 0 0\n");
    }

    #[test]
    fn every_word_as_it_is_printed() {
        let powers = (0..10).map(|i| 10_i32.pow(i));
        let near = powers.flat_map(|power| [power - 1, power, power + 1]);
        let both = near.flat_map(|word| [word, -word]);
        for word in both.chain([i32::MAX, i32::MIN]).filter(|&word| word != 0) {
            let expected = format!("p cnf 1 1\n{word} 0\n");
            assert_eq!(text(1, 1, &[word, 0]), expected.as_bytes());
        }
    }
}
