;;;; A link in memory in place of udp.lisp, for the tests: a queue that may lose, repeat and mix,
;;;; and a clock that the tests turn.

(in-package :chaosnet)

(defvar *now* 0)
(defvar *bad* 0 "Of a hundred datagrams, how many are lost, how many repeated, how many late.")
(defvar *sent* '() "All datagrams, the last first.")
(defvar *while-waiting* (lambda ()) "What others do while one waits.")

(defstruct link (queue '()) other)

(defun moment () *now*)

(defun unlucky-p () (< (random 100) *bad*))

(defun open-link (place peers)
  (declare (ignore place peers))
  (make-link))

(defun close-link (link)
  link)

(defun link-send (link address octets)
  (declare (ignore address))
  (push octets *sent*)
  (let ((other (link-other link)))
    (when other
      (loop repeat (cond ((unlucky-p) 0) ((unlucky-p) 2) (t 1))
            do (let* ((queue (link-queue other))
                      (place (if (unlucky-p) (random (1+ (length queue))) (length queue))))
                 (setf (link-queue other)
                       (append (subseq queue 0 place) (list octets) (nthcdr place queue))))))))

(defun link-wait (link milliseconds)
  (declare (ignore link))
  (incf *now* milliseconds)
  (funcall *while-waiting*)
  t)

(defun link-receive (link)
  (let ((octets (pop (link-queue link))))
    (and octets (values octets (length octets)))))
