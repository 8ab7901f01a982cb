fn first_even(lines: &[Line]) -> Result<usize, Error> {
    'search: for line in lines {
        let number = parse(line)?;
        if number % 2 == 0 {
            break 'serch;
        }
        continue 'search
    }
    Ok(0)
}
