//! Texts with a year of two digits, or nearly, and what they mean, each worked
//! out by hand from the calendar. The first is the request's own example.

/// Date texts and the days they give, or the number they are refused with.
pub const TEXTS: [(&str, Result<&[u16], u8>); 45] = [
    // 4 March 2002, 3 February 2004, 2 March 2004. The year first is the
    // earliest or the latest, and of the other two either comes first.
    ("02/03/04", Ok(&[793, 1494, 1522])),
    ("02.03.04", Ok(&[793, 1494, 1522])),
    ("02-03-04", Ok(&[793, 1494, 1522])),
    // 24 July 2003, 7 March 2024, 3 July 2024.
    ("03/07/24", Ok(&[1300, 8832, 8950])),
    // 5 January 2004, 4 January 2005, 1 April 2005.
    ("04/01/05", Ok(&[1465, 1830, 1917])),
    // 12 November 2010, 11 December 2010, 10 November 2012.
    ("12/11/10", Ok(&[3968, 3997, 4697])),
    // 10 September 2008, 9 October 2008, 8 October 2009.
    ("09/10/08", Ok(&[3175, 3204, 3568])),
    // 1 January 2001 three times.
    ("01/01/01", Ok(&[366])),
    // Day and month alike: 5 May 2004 twice, 4 May 2005.
    ("05/05/04", Ok(&[1586, 1950])),
    // Day and year alike: 4 May 2004 twice, 5 April 2004.
    ("04/05/04", Ok(&[1556, 1585])),
    // Month and year alike: 5 April 2004, 4 May 2004, 4 April 2005.
    ("05/04/04", Ok(&[1556, 1585, 1920])),
    // 29 February 2028 and 28 February 2029, both ways round.
    ("29/02/28", Ok(&[10286, 10651])),
    ("28/02/29", Ok(&[10286, 10651])),
    ("29/02/29", Err(20)),
    // 29 February 2000.
    ("29/02/00", Ok(&[59])),
    ("02/29/00", Ok(&[59])),
    ("00/02/29", Ok(&[59])),
    // The first and the last day.
    ("01/01/00", Ok(&[0])),
    ("00/01/01", Ok(&[0])),
    ("31/12/99", Ok(&[36524])),
    ("12/31/99", Ok(&[36524])),
    ("99/12/31", Ok(&[36524])),
    // 30 April 2031; there is no 31 April 2030.
    ("30/04/31", Ok(&[11442])),
    ("31/02/30", Err(20)),
    ("04/31/05", Err(20)),
    ("13/13/13", Err(20)),
    ("00/00/00", Err(20)),
    ("99/99/99", Err(20)),
    // 13 July 2024 only if the day could stand between the year and the month.
    ("24/13/07", Err(20)),
    ("02/03.04", Err(19)),
    ("02.03/04", Err(19)),
    ("02-03/04", Err(19)),
    ("02 03 04", Err(19)),
    ("02:03:04", Err(19)),
    ("02/03/0a", Err(19)),
    ("o2/03/04", Err(19)),
    ("02/0:/04", Err(19)),
    ("/2/03/04", Err(19)),
    ("99/99.99", Err(19)),
    ("2/03/04", Err(19)),
    ("02/03/4", Err(19)),
    ("02/03/04 ", Err(19)),
    ("02/03/004", Err(19)),
    ("2002/03/4", Err(19)),
    ("2002/03/04", Err(19)),
];
