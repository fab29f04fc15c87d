use super::*;

/// How far behind the start of a value a part of it stands.
fn place<T, P>(whole: &T, part: &P) -> usize {
    part as *const P as usize - whole as *const T as usize
}

#[test]
fn parts_stand_where_the_header_says() {
    let pixel = Pixel::default();
    assert_eq!(place(&pixel, &pixel.u), LENS_PIXEL_U);
    assert_eq!(place(&pixel, &pixel.v), LENS_PIXEL_V);

    let point = PointAnswer::default();
    assert_eq!(place(&point, &point.x), LENS_POINT_X);
    assert_eq!(place(&point, &point.y), LENS_POINT_Y);
    assert_eq!(place(&point, &point.updates), LENS_POINT_UPDATES);
    assert_eq!(place(&point, &point.settled), LENS_POINT_SETTLED);

    let jacobian = JacobianAnswer::default();
    assert_eq!(place(&jacobian, &jacobian.entries), LENS_JACOBIAN_ROW_U);
    assert_eq!(place(&jacobian, &jacobian.columns), LENS_JACOBIAN_COLUMNS);

    let turn = TurnAnswer::default();
    assert_eq!(place(&turn, &turn.status), LENS_TURN_STATUS);
    assert_eq!(place(&turn, &turn.done), LENS_TURN_DONE);
    assert_eq!(place(&turn, &turn.units), LENS_TURN_UNITS);
    assert_eq!(place(&turn, &turn.updates), LENS_TURN_UPDATES);
    assert_eq!(place(&turn, &turn.unsettled), LENS_TURN_UNSETTLED);
    assert_eq!(place(&turn, &turn.first), LENS_TURN_FIRST);

    let job = Record::default();
    assert_eq!(place(&job, &job.model), LENS_JOB_MODEL);
    assert_eq!(place(&job, &job.updates), LENS_JOB_UPDATES);
    assert_eq!(place(&job, &job.params), LENS_JOB_PARAMS);
    assert_eq!(place(&job, &job.width), LENS_JOB_WIDTH);
    assert_eq!(place(&job, &job.height), LENS_JOB_HEIGHT);
    assert_eq!(place(&job, &job.done), LENS_JOB_DONE);
    assert_eq!(place(&job, &job.edges), LENS_JOB_EDGES);
    assert_eq!(place(&job, &job.region), LENS_JOB_REGION);
    assert_eq!(place(&job, &job.unsettled), LENS_JOB_UNSETTLED);
    assert_eq!(place(&job, &job.first), LENS_JOB_FIRST);
    assert_eq!(place(&job, &job.strict), LENS_JOB_STRICT);
    assert_eq!(place(&job, &job.check), LENS_JOB_CHECK);
}

/// An observation's parts are private to it, so they are seen by their bytes.
#[test]
fn an_observation_has_the_parts_of_the_header() {
    let mut list = [Observation::new(Pixel::new(1.0, 2.0))];
    let u = bytes(&list)[LENS_OBSERVATION_PIXEL_U..][..8].to_vec();
    let v = bytes(&list)[LENS_OBSERVATION_PIXEL_V..][..8].to_vec();
    assert_eq!((u, v), (1.0f64.to_le_bytes().to_vec(), 2.0f64.to_le_bytes().to_vec()));
    let to = bytes_mut(&mut list);
    to[LENS_OBSERVATION_POINT_X..][..8].copy_from_slice(&3.0f64.to_le_bytes());
    to[LENS_OBSERVATION_POINT_Y..][..8].copy_from_slice(&4.0f64.to_le_bytes());
    to[LENS_OBSERVATION_SETTLED] = 1;
    to[LENS_OBSERVATION_NUMBER] = 0;
    let seen = list[0].answer().unwrap().unwrap();
    assert_eq!((seen.point.x, seen.point.y, seen.settled), (3.0, 4.0, true));
    bytes_mut(&mut list)[LENS_OBSERVATION_NUMBER] = 10;
    assert_eq!(list[0].answer(), Some(Err(Refusal::AngleTooLarge)));
}
