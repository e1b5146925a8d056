//! Runs through seats, worked out by hand: each line with what has to be printed for it.

/// The lines of each run, each with what is printed for it.
pub fn runs() -> Vec<Vec<(&'static str, &'static str)>> {
    let stated = |run: &'static str| {
        let lines = run.lines().filter(|line| !line.starts_with('#'));
        lines.map(|line| line.split_once(" = ").expect("a line and what is printed"))
    };
    let runs = [SAMPLE, ROUNDS, EQUAL, ZERO].into_iter();
    runs.map(|run| stated(run).collect()).collect()
}

/// The sample record of document 01, with calls at seats that have no right to them.
const SAMPLE: &str = "\
0,0,0 = 0
0,0,13 = 13 0 | 0 0 0 0 levels offer none
2,2,13 = 13 0 | 0 0 0 0 levels offer none
# 20 before 2 and 1.
1,0,3,25000 = 3 20 | 0 0 0 0 levels offer none
0,0,3,25000 = 3 2 | 0 0 0 0 levels offer none
2,2,1,3,1000,900,1200,40000 = 1 20 | 0 0 0 0 levels offer none
0,0,1,3,1000,900,1200,40000 = 1 1 | 0 0 0 0 levels offer none
0,0,1,20000,1000,900,1200,40000 = 1 0 | 0 0 0 1 levels offer none
0,0,2,1,1,1,0,0,1,820 = 2 0 | 0 0 0 1 levels offer none
0,0,2,2,2,2,400,10,2,100,200 = 2 0 | 0 0 0 1 levels offer none
2,2,2,2,3,2,500,20,1,200 = 2 20 | 0 0 0 1 levels 100 200 offer none
0,0,2,2,3,2,500,20,1,200 = 2 0 | 0 0 0 1 levels offer none
2,4,13 = 13 0 | 0 0 0 1 levels offer none
1,0,8,3,4,2,4,0,0,1,150 = 8 20 | 0 0 0 1 levels offer none
0,0,8,3,4,2,4,0,0,1,150 = 8 0 | 0 0 0 1 levels offer none
2,4,13 = 13 0 | 0 0 0 1 levels 150 offer none
2,1,7,1,0,0 = 7 20 | 0 0 0 1 levels 820 offer none
0,0,7,1,0,0 = 7 0 | 0 0 0 1 levels offer none
# 20 before 2, and an own offer that is too early.
2,2,4,3,0,0 = 4 20 | 0 0 0 1 levels 100 200 offer none
2,2,4,2,0,0 = 4 2 | 0 0 0 1 levels 100 200 offer none
2,2,3,25000 = 3 20 | 0 0 0 1 levels 100 200 offer none
0,0,3,25000 = 3 0 | 40000 25000 0 2 levels offer none
1,0,13 = 13 0 | 40000 25000 0 2 levels offer none
# Developer 5 has no right for 6; 33, 0 and 255 are no developers, 5 is unregistered, 1 exists.
2,5,4,6,0,0 = 4 20 | 40000 25000 0 2 levels offer none
2,33,4,33,0,0 = 4 3 | 40000 25000 0 2 levels offer none
2,0,4,0,0,0 = 4 3 | 40000 25000 0 2 levels offer none
2,255,9,255 = 9 3 | 40000 25000 0 2 levels offer none
2,33,4,32,0,0 = 4 20 | 40000 25000 0 2 levels offer none
2,5,4,5,0,0 = 4 3 | 40000 25000 0 2 levels offer none
2,1,4,1,0,0 = 4 3 | 40000 25000 0 2 levels 820 offer none
# The auctioneer and the auditor make no offers.
0,0,4,2,1,1,26000,100 = 4 20 | 40000 25000 0 2 levels offer none
1,0,4,2,1,1,26000,100 = 4 20 | 40000 25000 0 2 levels offer none
2,2,4,2,1,1,24999,100 = 4 6 | 40000 25000 0 2 levels 100 200 offer none
2,2,4,2,1,0,26000 = 4 6 | 40000 25000 0 2 levels 100 200 offer none
2,2,4,2,1,1,26000,150 = 4 7 | 40000 25000 0 2 levels 100 200 offer none
2,2,4,2,1,1,26000,100 = 4 0 | 40000 25000 0 2 levels 100 200 offer 26000:100
2,2,4,2,0,0 = 4 8 | 40000 25000 0 2 levels 100 200 offer 26000:100
2,3,4,3,1,1,26000,0 = 4 0 | 40000 25000 0 2 levels 200 offer 26000:0
2,3,9,2 = 9 20 | 40000 25000 0 2 levels 200 offer 26000:0
# An offer of no steps, which is not none.
2,4,9,4 = 9 16 | 40000 25000 0 2 levels 150 offer none
2,4,4,4,0,0 = 4 0 | 40000 25000 0 2 levels 150 offer
0,0,9,4 = 9 20 | 40000 25000 0 2 levels offer none
2,4,9,4 = 9 0 | 40000 25000 0 2 levels 150 offer none
2,4,4,4,1,1,26000,0 = 4 0 | 40000 25000 0 2 levels 150 offer 26000:0
0,0,10 = 10 0 -55 0 1 | 40000 25000 0 2 levels offer none
1,0,10 = 10 20 0 0 0 | 40000 25000 0 2 levels offer none
1,0,6,100,3 = 6 2 0 0 0 0 0 0 0 0 0 0 0 0 EEEEEE | 40000 25000 0 2 levels offer none
2,2,5 = 5 20 0 0 | 40000 25000 0 2 levels 100 200 offer 26000:100
0,0,5 = 5 0 -55 0 | 40000 25000 -55 4 levels offer none
# After a closing no offer stands.
2,2,13 = 13 0 | 40000 25000 -55 4 levels 100 200 offer none
2,2,9,2 = 9 2 | 40000 25000 -55 4 levels 100 200 offer none
0,0,5 = 5 2 0 0 | 40000 25000 -55 4 levels offer none
1,0,6,100,14 = 6 0 26000 970 0 1020 4 3 2 26000 0 0 26000 2 0101000003340203000000C8EEEE | 40000 25000 -55 4 levels offer none
0,0,6,4,12 = 6 0 26000 970 0 1020 4 3 2 26000 0 0 26000 2 0101000003340203000000C8 | 40000 25000 -55 4 levels offer none
0,0,6,3,2 = 6 10 0 0 0 0 0 0 0 0 0 0 0 0 EEEE | 40000 25000 -55 4 levels offer none
1,0,6,4,11 = 6 11 0 0 0 0 0 0 0 0 0 0 0 0 EEEEEEEEEEEEEEEEEEEEEE | 40000 25000 -55 4 levels offer none
1,0,6,4,0 = 6 11 0 0 0 0 0 0 0 0 0 0 0 0 | 40000 25000 -55 4 levels offer none
2,3,6,4,12 = 6 20 0 0 0 0 0 0 0 0 0 0 0 0 EEEEEEEEEEEEEEEEEEEEEEEE | 40000 25000 -55 4 levels 200 offer none
2,3,6,0,0 = 6 20 0 0 0 0 0 0 0 0 0 0 0 0 | 40000 25000 -55 4 levels 200 offer none
0,0,11,0 = 11 0 1 26000 1170 920 | 40000 25000 -55 4 levels offer none
0,0,11,1 = 11 0 1 0 0 0 | 40000 25000 -55 4 levels offer none
1,0,11,0 = 11 20 0 0 0 0 | 40000 25000 -55 4 levels offer none
0,0,12,2,3,1,19000 = 12 2 0 0 | 40000 25000 -55 4 levels offer none
2,2,12,2,3,0 = 12 20 0 0 | 40000 25000 -55 4 levels 100 200 offer none
# A fresh hall knows nothing of this.
0,0,0 = 0
2,2,13 = 13 0 | 0 0 0 0 levels offer none
";

/// The auction of the stated games, without 5 and 6. 1,150,000 are left at 20,000, where demand is
/// 1,000,000; in the next round plant 1 falls by 100,000 as it lodged, and demand rises by 20,000.
const ROUNDS: &str = "\
0,0,0 = 0
0,0,1,20000,1000000,900000,1200000,40000 = 1 0 | 0 0 0 1 levels offer none
0,0,2,1,1,1,0,0,2,800000,900000 = 2 0 | 0 0 0 1 levels offer none
0,0,2,2,2,2,0,0,2,150000,200000 = 2 0 | 0 0 0 1 levels offer none
0,0,2,3,3,2,0,0,1,100000 = 2 0 | 0 0 0 1 levels offer none
0,0,2,3,4,2,0,0,1,60000 = 2 0 | 0 0 0 1 levels offer none
# A lodged list is no offer.
0,0,7,1,1,1,19500,800000 = 7 0 | 0 0 0 1 levels offer none
2,1,13 = 13 0 | 0 0 0 1 levels 800000 900000 offer none
0,0,3,20000 = 3 0 | 40000 20000 0 2 levels offer none
2,1,13 = 13 0 | 40000 20000 0 2 levels 800000 900000 offer none
2,2,4,2,1,1,30000,150000 = 4 0 | 40000 20000 0 2 levels 150000 200000 offer 30000:150000
2,3,4,3,0,0 = 4 0 | 40000 20000 0 2 levels 100000 offer
2,4,4,4,0,0 = 4 0 | 40000 20000 0 2 levels 60000 offer
0,0,5 = 5 0 150000 0 | 40000 20000 150000 3 levels offer none
2,2,13 = 13 0 | 40000 20000 150000 3 levels 150000 200000 offer none
# The first stated game, and one of partners.
0,0,12,2,3,2,19000,18000 = 12 0 19000 1 | 40000 20000 150000 3 levels offer none
0,0,12,3,2,2,19000,18000 = 12 0 18000 0 | 40000 20000 150000 3 levels offer none
0,0,12,3,4,1,19000 = 12 17 0 0 | 40000 20000 150000 3 levels offer none
1,0,12,3,4,1,19000 = 12 20 0 0 | 40000 20000 150000 3 levels offer none
0,0,11,0 = 11 0 1 30000 1200000 1150000 | 40000 20000 150000 3 levels offer none
# The next round opens at the last C; the excess stays until it closes.
0,0,3,19000 = 3 0 | 20000 19000 150000 2 levels offer none
2,2,13 = 13 0 | 20000 19000 150000 2 levels 150000 200000 offer none
2,2,4,2,0,0 = 4 0 | 20000 19000 150000 2 levels 150000 200000 offer
2,3,4,3,0,0 = 4 0 | 20000 19000 150000 2 levels 100000 offer
0,0,10 = 10 0 30000 0 0 | 20000 19000 150000 2 levels offer none
0,0,5 = 5 0 30000 0 | 20000 19000 30000 3 levels offer none
";

/// Demand is 1,000 at all prices from 20,000 to 39,999, so the excess is the same in both rounds.
const EQUAL: &str = "\
0,0,0 = 0
0,0,1,20000,1000,999,1200,40000 = 1 0 | 0 0 0 1 levels offer none
0,0,2,1,1,1,0,0,1,3000 = 2 0 | 0 0 0 1 levels offer none
0,0,3,30000 = 3 0 | 40000 30000 0 2 levels offer none
0,0,5 = 5 0 2000 10000 | 40000 30000 2000 3 levels offer none
0,0,3,25000 = 3 0 | 30000 25000 2000 2 levels offer none
0,0,5 = 5 0 2000 5000 | 30000 25000 2000 3 levels offer none
2,1,13 = 13 0 | 30000 25000 2000 3 levels 3000 offer none
";

/// An excess of 0.
const ZERO: &str = "\
0,0,0 = 0
0,0,1,20000,1000,999,1200,40000 = 1 0 | 0 0 0 1 levels offer none
0,0,2,1,1,1,0,0,1,1000 = 2 0 | 0 0 0 1 levels offer none
0,0,3,30000 = 3 0 | 40000 30000 0 2 levels offer none
0,0,5 = 5 0 0 10000 | 40000 30000 0 4 levels offer none
";
