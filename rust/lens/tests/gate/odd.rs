//! What has to hold of every input: nothing panics, and a table or a job is for any thread.
use lens::{Camera, Jacobian, Job, Model, Observation, Pixel, Point, Refusal, Region, Table, Turn};

const ODD: [f64; 9] =
    [f64::NAN, f64::INFINITY, f64::NEG_INFINITY, 0.0, -0.0, f64::MAX, f64::MIN, f64::MIN_POSITIVE, 5e-324];
const SIZES: [u32; 7] = [0, 1, 2, 3, 4096, 4097, u32::MAX];

fn of_any_thread<T: Send + Sync + 'static>() {}

#[test]
fn all_types_are_of_any_thread() {
    of_any_thread::<(Camera, Model, Point, Pixel, Jacobian, Observation, Refusal)>();
    of_any_thread::<(Job<f32>, Job<i16>, Table, Table<&'static [f32]>, Turn)>();
}

#[test]
fn odd_numbers_have_an_answer_or_a_refusal() {
    for model in Model::ALL {
        for place in 0..model.param_names().len() {
            for odd in ODD {
                let mut params = vec![0.5; model.param_names().len()];
                params[place] = odd;
                let camera = Camera::from_params(*model, &params).unwrap();
                let answer = camera.distort(Point::new(0.0, 0.0));
                if !odd.is_finite() {
                    assert_eq!(answer, Err(Refusal::NotFinite));
                } else if place < 2 && odd == 0.0 {
                    assert_eq!(answer, Err(Refusal::ZeroFocalLength));
                }
                if let Ok(pixel) = answer {
                    assert!(pixel.u.is_finite() && pixel.v.is_finite());
                }
                for pixel in [Pixel::new(odd, 0.0), Pixel::new(0.0, odd), Pixel::new(1e6, -1e6)] {
                    let _ = (camera.undistort(pixel), camera.distort(Point::new(pixel.u, pixel.v)));
                    let _ = camera.dx_distort_x(Point::new(pixel.u, pixel.v));
                    let _ = camera.dx_distort_params(Point::new(pixel.u, pixel.v));
                }
                let _ = Table::build(&camera, 2, 3);
            }
        }
        assert_eq!(Camera::from_params(*model, &[1.0; 3]), Err(Refusal::WrongCount));
        assert_eq!(Camera::from_params(*model, &[1.0; 100]), Err(Refusal::WrongCount));
    }
}

#[test]
fn tables_of_any_size_have_an_answer_or_a_refusal() {
    let camera = Camera::Affine { fx: 1.0, fy: 1.0, cx: 0.0, cy: 0.0 };
    for (width, height) in SIZES.iter().flat_map(|w| SIZES.map(|h| (*w, h))) {
        let fits = |n: u32| (2..=4096).contains(&n);
        let job = Job::<i16>::strict(&camera, width, height);
        assert_eq!(job.as_ref().err(), if fits(width) && fits(height) { None } else { Some(&Refusal::WrongSize) });
        for (length, edge) in [0, 1, 7, 8, 18].into_iter().flat_map(|n| ODD.map(|edge| (n, edge))) {
            let table = Table::new(
                vec![1.5; length],
                Region { left: -1.0, top: -1.0, right: edge, bottom: 2.0 },
                width,
                height,
            );
            let looked = table.lookup(Point::new(0.0, 0.0));
            let right = length as u128 == 2 * u128::from(width) * u128::from(height);
            assert!(looked.is_err() || right);
            assert_eq!(table.cell(width, 0), None);
            assert_eq!(table.cell(0, height), None);
            let _ = (table.cell(0, 0), table.cell(width.wrapping_sub(1), height.wrapping_sub(1)));
            assert!(table.rows().flatten().count() * 2 <= length);
        }
    }
}

#[test]
fn a_table_of_another_length_is_refused_and_the_job_goes_on() {
    let camera = Camera::Affine { fx: 1.0, fy: 1.0, cx: 0.0, cy: 0.0 };
    let mut job = Job::new(&camera, 3, 2).unwrap();
    assert_eq!(job.turn(&mut [0f32; 11], 1), Err(Refusal::WrongLength));
    assert_eq!(job.turn(&mut [0f32; 13], 1), Err(Refusal::WrongLength));
    assert_eq!(job.progress().done, 0);
    let copy = job.clone();
    let mut cells = [0f32; 12];
    assert!(matches!(job.turn(&mut cells, 16), Ok(Turn::Finished(_))));
    assert_eq!(job.table(cells).map(|table| table.cell(2, 1)), Some(Some([4.0, 2.5])));
    assert_ne!(copy, job);
    for bytes in [&[][..], &[0; 7], &copy.as_bytes()[1..]] {
        assert_eq!(Job::from_bytes(bytes, &mut cells), Err(Refusal::WrongLength));
    }
}
